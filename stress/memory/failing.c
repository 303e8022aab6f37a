/*
 * Preloaded before a program: refuses the allocation whose number stands in FAIL_AT, and makes the empty file of FAIL_TOLD when it does.
 */
#include <fcntl.h>
#include <stdatomic.h>
#include <stddef.h>
#include <stdlib.h>
#include <unistd.h>

void *__libc_malloc(size_t size);
void *__libc_realloc(void *block, size_t size);

static atomic_ulong calls;
static unsigned long failing;
static const char *told;

__attribute__((constructor)) static void begin(void) {
    const char *at = getenv("FAIL_AT");
    told = getenv("FAIL_TOLD");
    failing = at != NULL ? strtoul(at, NULL, 10) : 0;
    atomic_store(&calls, 0);
}

static int is_refused(void) {
    if (atomic_fetch_add(&calls, 1) + 1 != failing) {
        return 0;
    }
    if (told != NULL) {
        close(open(told, O_CREAT | O_WRONLY, 0600));
    }
    return 1;
}

void *malloc(size_t size) {
    return is_refused() ? NULL : __libc_malloc(size);
}

void *realloc(void *block, size_t size) {
    return is_refused() ? NULL : __libc_realloc(block, size);
}
