"""Lists the mixed cells of a file from Python: call.py LIBRARY FILE"""
import ctypes
import sys

NO_ROOM = 256


def load(path):
    run = ctypes.CDLL(path).mixedcells_run
    run.restype = ctypes.c_uint32
    run.argtypes = [ctypes.c_char_p, ctypes.c_size_t, ctypes.c_char_p, ctypes.c_size_t,
                    ctypes.c_char_p, ctypes.c_size_t, ctypes.POINTER(ctypes.c_size_t)]
    return run


def call(run, command, data):
    """The status of a command on the bytes of an input, and the bytes of its answer."""
    room = 1 << 16
    while True:
        answer, length = ctypes.create_string_buffer(room), ctypes.c_size_t()
        status = run(command, len(command), data, len(data), answer, room, ctypes.byref(length))
        if status != NO_ROOM:
            return status, answer.raw[:length.value]
        room = length.value


def cells(listing, dim):
    """The positions and the normal of each cell of a listing: (pairs, numerators, denominator)."""
    for line in listing.decode().splitlines():
        words = line.split()
        if words[:1] == ["cell"]:
            positions = [int(word) for word in words[1:2 * dim + 1]]
            pairs = list(zip(positions[::2], positions[1::2]))
            yield pairs, [int(word) for word in words[2 * dim + 2:3 * dim + 2]], int(words[-1])


def main():
    run = load(sys.argv[1])
    with open(sys.argv[2], "rb") as file:
        data = file.read()
    status, listing = call(run, b"list", data)
    if status != 0:
        sys.stdout.write(listing.decode())
        return min(status, 255)
    status, verdict = call(run, b"check", listing)
    dim = next(int(line.split()[1]) for line in listing.decode().splitlines() if line.startswith("dim "))
    for pairs, numerators, denominator in cells(listing, dim):
        print(pairs, numerators, denominator)
    print("check:", status, verdict.decode().strip())
    return status


if __name__ == "__main__":
    sys.exit(main())
