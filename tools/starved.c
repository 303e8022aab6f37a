/*
 * Calls the library with one allocation after the other failing: starved COMMAND FILE
 *
 * Linked with -Wl,--wrap=malloc,--wrap=realloc,--wrap=free. Each call must return 8 and leave the room as it was, or give the
 * answer that it gives with all memory, and leave no block behind. Ends with status 0 where all did; prints what was seen.
 */
#include "mixedcells.h"

#include <stdio.h>
#include <string.h>

void *__real_malloc(size_t size);
void *__real_realloc(void *block, size_t size);
void __real_free(void *block);
void *__wrap_malloc(size_t size);
void *__wrap_realloc(void *block, size_t size);
void __wrap_free(void *block);

static unsigned long calls, failing;
static long blocks;

void *__wrap_malloc(size_t size) {
    void *block = ++calls == failing ? NULL : __real_malloc(size);
    blocks += block != NULL;
    return block;
}

void *__wrap_realloc(void *block, size_t size) {
    void *moved = ++calls == failing ? NULL : __real_realloc(block, size);
    blocks += moved != NULL && block == NULL;
    return moved;
}

void __wrap_free(void *block) {
    blocks -= block != NULL;
    __real_free(block);
}

static uint8_t input[1 << 20], wanted[1 << 20], answer[1 << 20], blank[1 << 20];

int main(int count, char **words) {
    size_t read, needed, length;
    uint32_t want, status;
    unsigned long taken, refused = 0, same = 0, wrong = 0;
    FILE *file = count == 3 ? fopen(words[2], "rb") : NULL;
    if (file == NULL) {
        fputs("starved COMMAND FILE\n", stderr);
        return 2;
    }
    read = fread(input, 1, sizeof input, file);
    fclose(file);
    memset(blank, '~', sizeof blank);
    calls = failing = 0;
    blocks = 0;
    want = mixedcells_run((const uint8_t *)words[1], strlen(words[1]), input, read, wanted, sizeof wanted, &needed);
    taken = calls;
    wrong += blocks != 0;
    for (failing = 1; failing <= taken; failing++) {
        memcpy(answer, blank, sizeof answer);
        calls = 0;
        blocks = 0;
        length = 1;
        status = mixedcells_run((const uint8_t *)words[1], strlen(words[1]), input, read, answer, sizeof answer, &length);
        if (blocks == 0 && status == MIXEDCELLS_NO_MEMORY && length == 0 && memcmp(answer, blank, sizeof answer) == 0) {
            refused++;
        } else if (blocks == 0 && status == want && length == needed && memcmp(answer, wanted, length) == 0) {
            same++;
        } else {
            wrong++;
        }
    }
    printf("%s: %lu allocations, each failing in turn: %lu without memory, %lu answered all the same, %lu wrong\n", words[1], taken, refused, same, wrong);
    return wrong == 0 && refused != 0 ? 0 : 1;
}
