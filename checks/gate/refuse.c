/* Refuses one growth of a program that runs with this library preloaded.

   REFUSE is the number of the growth to refuse, from 1; without it none is refused. GROWTHS names a file of eight bytes,
   in which the number of growths asked for is kept. A growth is a call of malloc, or of realloc that asks for more.

   The tests ask for ASKED bytes to learn whether a growth was refused (was_refused of crates/test_harness): that call is
   refused once after the growth, and not counted. */
#include <fcntl.h>
#include <malloc.h>
#include <stddef.h>
#include <stdint.h>
#include <stdlib.h>
#include <sys/mman.h>
#include <unistd.h>

enum { ASKED = 65521 };

extern void *__libc_malloc(size_t size);
extern void *__libc_realloc(void *block, size_t size);

static uint64_t number, refused, *growths = &number;

__attribute__((constructor)) static void begin(void) {
    const char *which = getenv("REFUSE"), *file = getenv("GROWTHS");
    int opened = file ? open(file, O_RDWR) : -1;
    if (opened >= 0) {
        void *shared = mmap(NULL, sizeof number, PROT_READ | PROT_WRITE, MAP_SHARED, opened, 0);
        if (shared != MAP_FAILED)
            growths = shared;
        close(opened);
    }
    *growths = 0;
    refused = which ? strtoull(which, NULL, 10) : 0;
}

static int untold;

static int is_refused(void) {
    if (++*growths != refused)
        return 0;
    untold = 1;
    return 1;
}

void *malloc(size_t size) {
    if (size == ASKED) {
        int refuses = untold;
        untold = 0;
        return refuses ? NULL : __libc_malloc(size);
    }
    return is_refused() ? NULL : __libc_malloc(size);
}

void *realloc(void *block, size_t size) {
    if (block && size <= malloc_usable_size(block))
        return __libc_realloc(block, size);
    return is_refused() ? NULL : __libc_realloc(block, size);
}
