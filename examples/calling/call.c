/*
 * Runs a command on a file and writes the answer: call COMMAND [FILE]
 *
 *     cc -I include call.c lib/libmixedcells.a -o call
 *     ./call "make cyclic 5" >cyclic_five.mixed
 *     ./call list cyclic_five.mixed
 */
#include "mixedcells.h"

#include <stdio.h>
#include <stdlib.h>
#include <string.h>

struct bytes {
    uint8_t *at;
    size_t length;
};

/* All bytes of a file, behind at least one byte of room, so that the pointer is never null. */
static int read_file(const char *path, struct bytes *file) {
    size_t room = 1 << 16;
    FILE *stream = fopen(path, "rb");
    file->length = 0;
    file->at = malloc(room);
    while (stream != NULL && file->at != NULL) {
        uint8_t *grown;
        file->length += fread(file->at + file->length, 1, room - file->length, stream);
        if (file->length < room) {
            break;
        }
        room *= 2;
        grown = realloc(file->at, room);
        if (grown == NULL) {
            free(file->at);
        }
        file->at = grown;
    }
    if (stream == NULL || file->at == NULL || ferror(stream)) {
        if (stream != NULL) {
            fclose(stream);
        }
        return 0;
    }
    fclose(stream);
    return 1;
}

/* The answer to a command in a block of its own, which the caller frees. */
static uint32_t run(const char *command, const struct bytes *input, struct bytes *answer) {
    size_t room = (size_t)64 << 20; /* only the pages that the answer touches take memory */
    for (;;) {
        uint32_t status;
        answer->length = 0;
        answer->at = malloc(room);
        if (answer->at == NULL) {
            return MIXEDCELLS_NO_MEMORY;
        }
        status = mixedcells_run((const uint8_t *)command, strlen(command), input->at, input->length, answer->at, room, &answer->length);
        if (status != MIXEDCELLS_NO_ROOM) {
            return status;
        }
        room = answer->length;
        free(answer->at);
    }
}

int main(int count, char **words) {
    struct bytes input, answer;
    uint32_t status;
    int written;
    if (count < 2 || count > 3) {
        fputs("call COMMAND [FILE]\n", stderr);
        return 124;
    }
    if (!read_file(count == 3 ? words[2] : "/dev/null", &input)) {
        fputs("call: the file can't be read\n", stderr);
        free(input.at);
        return 124;
    }
    status = run(words[1], &input, &answer);
    written = fwrite(answer.at != NULL ? answer.at : input.at, 1, answer.length, stdout) == answer.length && fflush(stdout) == 0;
    free(answer.at);
    free(input.at);
    return written ? (int)status : 124;
}
