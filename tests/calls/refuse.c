/* A malloc and a realloc that answer once that there is no memory: at the call whose number the environment gives. They are loaded before a
   program's own (LD_PRELOAD), so that ./check can refuse one allocation of a proved program after another. */
#include <stdatomic.h>
#include <stddef.h>
#include <stdlib.h>
#include <unistd.h>

void *__libc_malloc(size_t size);
void *__libc_realloc(void *old, size_t size);

static atomic_ulong left; /* how many calls there are up to the one that is refused, and it */

__attribute__((constructor)) static void begin(void) {
    const char *number = getenv("REFUSED_ALLOCATION");
    atomic_store(&left, number ? strtoul(number, NULL, 10) : 0);
}

/* Whatever threads there are, each call up to that one takes one, and the one that takes the last is refused. */
static int is_refused(void) {
    unsigned long was = atomic_load(&left);
    while (was && !atomic_compare_exchange_weak(&left, &was, was - 1)) {
    }
    return was == 1 && write(2, "refused\n", 8) == 8;
}

void *malloc(size_t size) { return is_refused() ? NULL : __libc_malloc(size); }

void *realloc(void *old, size_t size) { return is_refused() ? NULL : __libc_realloc(old, size); }
