/* Reads and writes of a program's first socket that fail: from the one on whose number the environment gives
   (CUT_READ, CUT_WRITE), or behind so many bytes (CUT_READ_BEHIND, CUT_WRITE_BEHIND), up to which they move
   what they can; or such that each first waits so many microseconds (SLOW_MICROSECONDS). They are loaded before
   a program's own (LD_PRELOAD), so that ./check can cut a connection of a proved program at each of its calls,
   and behind each of its bytes, and make it slow. */
#define _GNU_SOURCE
#include <errno.h>
#include <limits.h>
#include <stdlib.h>
#include <sys/socket.h>
#include <sys/stat.h>
#include <sys/syscall.h>
#include <sys/uio.h>
#include <unistd.h>

/* How far the first call is that fails, 1 where it is the next one; 0 where none fails. */
static unsigned long reads, writes;
/* How many bytes may still be moved. */
static unsigned long readable, writable;
/* How long each call waits. */
static unsigned long slow;
static ino_t first;
static int is_said;

static unsigned long number(const char *name, unsigned long otherwise) {
    const char *it = getenv(name);
    return it ? strtoul(it, NULL, 10) : otherwise;
}

__attribute__((constructor)) static void begin(void) {
    reads = number("CUT_READ", 0);
    writes = number("CUT_WRITE", 0);
    readable = number("CUT_READ_BEHIND", ULONG_MAX);
    writable = number("CUT_WRITE_BEHIND", ULONG_MAX);
    slow = number("SLOW_MICROSECONDS", 0);
}

static int is_first_socket(int file) {
    struct stat it;
    if (fstat(file, &it) || !S_ISSOCK(it.st_mode)) return 0;
    if (!first) first = it.st_ino;
    return it.st_ino == first;
}

static int cut(int why) {
    if (!is_said) is_said = syscall(SYS_write, 2, "cut\n", 4) == 4;
    errno = why;
    return 1;
}

static int is_cut(int file, unsigned long *left, int why) {
    if (!*left || !is_first_socket(file)) return 0;
    if (*left > 1) return --*left, 0;
    return cut(why);
}

static int is_read_cut(int file) { return is_cut(file, &reads, ECONNRESET); }

static int is_write_cut(int file) { return is_cut(file, &writes, EPIPE); }

/* Whether a call is cut; else how many bytes it may move, of so many. Calls that would move several pieces are
   not told how many: a program that makes them is stopped where bytes are counted. */
static int is_cut_of(int file, int is_call_cut, unsigned long left, size_t *count, int why) {
    if (is_call_cut) return 1;
    if (slow && is_first_socket(file)) usleep(slow);
    if (left == ULONG_MAX || !is_first_socket(file)) return 0;
    if (!count) abort();
    if (!left && *count) return cut(why);
    if (*count > left) *count = left;
    return 0;
}

static ssize_t moved(int file, unsigned long *left, ssize_t count) {
    if (count > 0 && *left != ULONG_MAX && is_first_socket(file)) *left -= count;
    return count;
}

static int no_read(int file, size_t *count) {
    return is_cut_of(file, is_read_cut(file), readable, count, ECONNRESET);
}

/* Who can't write any more has sent all that it sends: so the other side sees, which may wait for more. */
static int no_write(int file, size_t *count) {
    int why;
    if (!is_cut_of(file, is_write_cut(file), writable, count, EPIPE)) return 0;
    why = errno;
    syscall(SYS_shutdown, file, SHUT_WR);
    errno = why;
    return 1;
}

ssize_t read(int file, void *into, size_t count) {
    return no_read(file, &count) ? -1 : moved(file, &readable, syscall(SYS_read, file, into, count));
}

ssize_t readv(int file, const struct iovec *into, int count) {
    return no_read(file, NULL) ? -1 : syscall(SYS_readv, file, into, count);
}

ssize_t recvfrom(int file, void *into, size_t count, int flags, struct sockaddr *from, socklen_t *size) {
    if (no_read(file, &count)) return -1;
    return moved(file, &readable, syscall(SYS_recvfrom, file, into, count, flags, from, size));
}

ssize_t recv(int file, void *into, size_t count, int flags) {
    return recvfrom(file, into, count, flags, NULL, NULL);
}

ssize_t recvmsg(int file, struct msghdr *into, int flags) {
    return no_read(file, NULL) ? -1 : syscall(SYS_recvmsg, file, into, flags);
}

ssize_t write(int file, const void *from, size_t count) {
    return no_write(file, &count) ? -1 : moved(file, &writable, syscall(SYS_write, file, from, count));
}

ssize_t writev(int file, const struct iovec *from, int count) {
    return no_write(file, NULL) ? -1 : syscall(SYS_writev, file, from, count);
}

ssize_t sendto(int file, const void *from, size_t count, int flags, const struct sockaddr *to,
               socklen_t size) {
    if (no_write(file, &count)) return -1;
    return moved(file, &writable, syscall(SYS_sendto, file, from, count, flags, to, size));
}

ssize_t send(int file, const void *from, size_t count, int flags) {
    return sendto(file, from, count, flags, NULL, 0);
}

ssize_t sendmsg(int file, const struct msghdr *from, int flags) {
    return no_write(file, NULL) ? -1 : syscall(SYS_sendmsg, file, from, flags);
}
