//! Lists the mixed cells of a file from Rust, in two threads at once: call FILE
//!
//!     rustc -O -L native=lib -l static=mixedcells call.rs && ./call two_squares.mixed

const NO_ROOM: u32 = 256;

unsafe extern "C" {
    fn mixedcells_run(
        command: *const u8,
        command_length: usize,
        input: *const u8,
        input_length: usize,
        answer: *mut u8,
        room: usize,
        length: *mut usize,
    ) -> u32;
}

/// The status of a command on an input, and its answer.
fn run(command: &str, input: &[u8]) -> (u32, Vec<u8>) {
    let mut answer = vec![0; 1 << 16];
    loop {
        let mut length = 0;
        // SAFETY: the pointers and lengths are those of slices that live through the call, and none
        // of them is null; `answer` and `length` are borrowed for it alone.
        let status = unsafe {
            mixedcells_run(
                command.as_ptr(),
                command.len(),
                input.as_ptr(),
                input.len(),
                answer.as_mut_ptr(),
                answer.len(),
                &mut length,
            )
        };
        if status != NO_ROOM {
            answer.truncate(length);
            return (status, answer);
        }
        answer.resize(length, 0);
    }
}

fn main() {
    let path = std::env::args().nth(1).expect("call FILE");
    let input = std::fs::read(path).expect("the file can't be read");
    let (listed, tried) = std::thread::scope(|scope| {
        let listed = scope.spawn(|| run("list", &input));
        let tried = scope.spawn(|| run("plain", &input));
        (listed.join().unwrap(), tried.join().unwrap())
    });
    print!("{}", String::from_utf8_lossy(&listed.1));
    let agrees = listed == tried && run("check", &listed.1) == (0, b"yes\n".to_vec());
    std::process::exit(if agrees { 0 } else { 1 });
}
