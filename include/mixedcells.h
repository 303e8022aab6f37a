/*
 * mixedcells: the mixed cells of lifted supports, listed exactly, for C and for all that calls C.
 *
 * Link libmixedcells.a, or load libmixedcells.so; besides the C library nothing is needed. x86-64 Linux.
 */
#ifndef MIXEDCELLS_H
#define MIXEDCELLS_H

#include <stddef.h>
#include <stdint.h>

#ifdef __cplusplus
extern "C" {
#endif

/* What mixedcells_run returns: the statuses of the program, and one more. */
enum {
    MIXEDCELLS_OK = 0,          /* the whole answer: a listing, two lines of `sum`, "yes", powers, "tie free", a log, or a file */
    MIXEDCELLS_NO = 1,          /* `check`, `powers`, `move` and `verify`: a line of the listing or the log does not pass */
    MIXEDCELLS_USAGE = 2,       /* the command has no meaning; one that isn't UTF-8 has none */
    MIXEDCELLS_FORMAT = 3,      /* the input has a faulty line */
    MIXEDCELLS_TIE = 4,         /* `list`, `sum`, `trace`, `generic` and `move`: two points are level with a cell at once */
    MIXEDCELLS_OVERFLOW = 5,    /* a number that is needed is above 2^127 - 1 */
    MIXEDCELLS_READ_FAULT = 6,  /* of the program alone: never returned here */
    MIXEDCELLS_WRITE_FAULT = 7, /* of the program alone: never returned here */
    MIXEDCELLS_NO_MEMORY = 8,   /* malloc or realloc failed: no answer, its length is 0 */
    MIXEDCELLS_TOO_LONG = 9,    /* the input has more than 16,777,216 bytes */
    MIXEDCELLS_TOO_MANY = 10,   /* `plain` and `generic`: more than 1,000,000 choices of pairs */
    MIXEDCELLS_NEEDS_TEAM = 11, /* `list` and `sum` by two or more searchers: not here; the answer is empty */
    MIXEDCELLS_NO_ROOM = 256    /* the answer is longer than the room: nothing was written but its length */
};

/*
 * Runs a command on an input, and writes its answer to the front of `answer` and the answer's length to `*length`.
 *
 * `command` has the words that the program takes, with one blank between them and none before or behind: "list",
 * "make cyclic 8 --seed 3". `input` has the bytes that the program reads. Neither ends with a zero that counts. The
 * answer is the bytes that the program writes, with no zero behind them, and what stands in `answer` behind it stays.
 *
 * `room` says how many bytes `answer` has room for. Where the answer is longer, MIXEDCELLS_NO_ROOM is returned, `answer`
 * stays as it was, and `*length` is the room that the same call needs. That call computes everything again. So give
 * much at once, as 64 MiB: bytes of `answer` behind the answer aren't touched, and of a large block from malloc only the
 * pages that are touched take memory. A listing has the file's own lines and at most 865 bytes for each cell.
 *
 * All memory stays whose it was: what is passed is the caller's, what the call takes it gives back. It takes it by malloc,
 * realloc and free of the program, which must be of one allocator and align as malloc does.
 *
 * Calls share nothing: several threads may call at once, on different `answer` and `length`. The call runs in its caller's
 * thread and may take as long as the program does; it can't be cut short.
 *
 * What a caller owes, and nothing checks:
 * - No pointer is null, also where its length is 0; `answer` may then point to anything that is there.
 * - Each pointer has as many bytes behind it as its length says, and no length is 2^63 or more.
 * - `answer` and `*length` overlap neither each other nor the command or the input.
 * - No other thread writes to what is passed, or reads `answer` or `*length`, before the call returns.
 * - No call comes from a signal handler, or in a forked child of a process with several threads.
 */
uint32_t mixedcells_run(const uint8_t *command, size_t command_length, const uint8_t *input, size_t input_length,
                        uint8_t *answer, size_t room, size_t *length);

#ifdef __cplusplus
}
#endif

#endif
