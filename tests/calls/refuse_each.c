/* A malloc and a realloc that refuse one call after another, from the one to the other whose numbers the environment gives: at each the
   program is forked, and the copy, to which the call is refused, runs to its end, which is written to a file. Then the program goes on. They
   are loaded before a program's own (LD_PRELOAD), so that ./check --all can refuse each allocation of a long run without running all that
   comes before it once more. Where the environment gives a room, the program keeps in one of that size what it prints at its end: a copy
   that has put there that memory was lacking then ends at its next call, with the status STOPPED and what it kept so far. */
#define _GNU_SOURCE
#include <stddef.h>
#include <stdlib.h>
#include <string.h>
#include <sys/mman.h>
#include <sys/syscall.h>
#include <sys/wait.h>
#include <unistd.h>

void *__libc_malloc(size_t size);
void *__libc_realloc(void *old, size_t size);
void __libc_free(void *old);

enum { SECONDS = 60, MOST = 1 << 22, STOPPED = 99 };
static const char LACKING[] = "NoMemory\n";

/* How a copy ended: behind how many bytes of the program's own output it began, its status, what it printed and what it said. In place of
   the first of these stands that it ended as the one before, or that it is the program itself, whose calls were so many. */
enum { SAME = -1, WHOLE = -2 };
struct end {
    long number, before, status, printed, said;
};

static long at, first, last;
static int streams[2] = {-1, -1}, ends = -1, is_copy;
static char *came, *before, *kept;
static size_t room;
static struct end was;

static long number(const char *name) {
    const char *it = getenv(name);
    return it ? strtol(it, NULL, 10) : 0;
}

__attribute__((constructor)) static void begin(void) {
    first = number("REFUSED_FIRST");
    last = number("REFUSED_LAST");
    room = number("REFUSED_ROOM");
    if (!first) return;
    ends = number("REFUSED_ENDS");
    for (int i = 0; i < 2; i++) streams[i] = memfd_create("stream", MFD_CLOEXEC);
    came = mmap(NULL, 2 * MOST, PROT_READ | PROT_WRITE, MAP_PRIVATE | MAP_ANONYMOUS, -1, 0);
    before = came + MOST;
    if (came == MAP_FAILED || streams[0] < 0 || streams[1] < 0) abort();
}

static void put(const void *from, size_t count) {
    if (write(ends, from, count) != (ssize_t)count) abort();
}

/* What a stream of a copy has, which is put behind what is there. */
static size_t taken(int stream, size_t behind) {
    ssize_t count = pread(stream, came + behind, MOST - behind, 0);
    if (count < 0 || behind + count == MOST) abort();
    return count;
}

/* Writes how a copy ended; of one that ended as the one before only that. */
static void tell(long status, long printed_before) {
    struct end now = {at, printed_before, status, 0, 0};
    now.printed = taken(streams[0], 0);
    now.said = taken(streams[1], now.printed);
    size_t count = now.printed + now.said;
    int is_same = was.number && was.before == now.before && was.status == now.status && was.printed == now.printed &&
                  was.said == now.said && !memcmp(came, before, count);
    was = now;
    if (is_same) {
        now = (struct end){at, SAME, 0, 0, 0};
        put(&now, sizeof now);
        return;
    }
    memcpy(before, came, count);
    put(&now, sizeof now);
    put(came, count);
}

__attribute__((destructor)) static void finish(void) {
    struct end whole = {at, WHOLE, 0, 0, 0};
    if (first && !is_copy) put(&whole, sizeof whole);
}

/* A program that ends by this call runs no destructor. */
void _exit(int status) {
    finish();
    syscall(SYS_exit_group, status);
    __builtin_trap();
}

/* Ends a copy that has kept, as the last thing, that memory was lacking. */
static void stop_where_told(void) {
    size_t count = kept ? strnlen(kept, room) : 0, end = strlen(LACKING);
    if (count < end || memcmp(kept + count - end, LACKING, end)) return;
    _exit(write(1, kept, count) == (ssize_t)count ? STOPPED : 1);
}

/* Whether the call is refused, which it is in a copy alone. */
static int is_refused(void) {
    if (is_copy) stop_where_told();
    if (is_copy || !first || ++at < first || at > last) return 0;
    off_t input = lseek(0, 0, SEEK_CUR), output = lseek(1, 0, SEEK_CUR);
    for (int i = 0; i < 2; i++)
        if (ftruncate(streams[i], 0) || lseek(streams[i], 0, SEEK_SET)) abort();
    pid_t copy = fork();
    if (copy < 0) abort();
    if (!copy) {
        is_copy = 1;
        alarm(SECONDS);
        if (dup2(streams[0], 1) < 0 || dup2(streams[1], 2) < 0) abort();
        return 1;
    }
    int status;
    if (waitpid(copy, &status, 0) != copy) abort();
    if (input >= 0) lseek(0, input, SEEK_SET);
    tell(WIFEXITED(status) ? WEXITSTATUS(status) : 128 + WTERMSIG(status), output >= 0 ? output : 0);
    return 0;
}

void *malloc(size_t size) {
    if (is_refused()) return NULL;
    void *made = __libc_malloc(size);
    if (room && size == room && !is_copy) kept = made;
    return made;
}

void *realloc(void *old, size_t size) { return is_refused() ? NULL : __libc_realloc(old, size); }

/* A copy ends soon, and what it would give back lies in pages that it shares: to write there would copy each of them. */
void free(void *old) {
    if (!is_copy) __libc_free(old);
}
