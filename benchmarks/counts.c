/* Counts for a program that looks at the clock of its thread as its timed part begins and ends: the bytes that it holds as that part begins, and how
   often the part asks for memory. Under callgrind what is counted of that part alone is dumped. Put in front of a program by LD_PRELOAD, and printed
   on standard error as `counts: BYTES CALLS`. */
#define _GNU_SOURCE
#include <malloc.h>
#include <stdio.h>
#include <sys/syscall.h>
#include <time.h>
#include <unistd.h>
#if __has_include(<valgrind/callgrind.h>)
#include <valgrind/callgrind.h>
#else
#define CALLGRIND_ZERO_STATS
#define CALLGRIND_DUMP_STATS
#endif

extern void *__libc_malloc(size_t);
extern void *__libc_calloc(size_t, size_t);
extern void *__libc_realloc(void *, size_t);
extern void *__libc_memalign(size_t, size_t);
extern void __libc_free(void *);

static long bytes, calls, held, before, looks;

/* With the word in front of each block. */
static long size_of(void *block) { return block ? (long)malloc_usable_size(block) + 8 : 0; }

static void *taken(void *block) {
    calls++;
    bytes += size_of(block);
    return block;
}

void *malloc(size_t size) { return taken(__libc_malloc(size)); }
void *calloc(size_t count, size_t size) { return taken(__libc_calloc(count, size)); }
void *aligned_alloc(size_t align, size_t size) { return taken(__libc_memalign(align, size)); }

int posix_memalign(void **block, size_t align, size_t size) {
    *block = taken(__libc_memalign(align, size));
    return *block ? 0 : 12;
}

void *realloc(void *block, size_t size) {
    bytes -= size_of(block);
    return taken(__libc_realloc(block, size));
}

void free(void *block) {
    bytes -= size_of(block);
    __libc_free(block);
}

int clock_gettime(clockid_t clock, struct timespec *time) {
    int status = (int)syscall(SYS_clock_gettime, clock, time);
    if (clock != CLOCK_THREAD_CPUTIME_ID || looks > 1) return status;
    if (looks++ == 0) {
        held = bytes;
        before = calls;
        CALLGRIND_ZERO_STATS;
    } else {
        CALLGRIND_DUMP_STATS;
        dprintf(2, "counts: %ld %ld\n", held, calls - before);
    }
    return status;
}
