/* Laid before the C library: standard input and output that give and take little at once, are interrupted or fail, and a
   system that has no thread or no clock. Each is asked for by a variable of the environment:

     MOST=n         a read or write moves at most n bytes
     INTERRUPTED=1  each second read or write is interrupted
     READS_END=n    standard input fails once it gave n bytes
     WRITES_END=n   standard output fails once it took n bytes
     EMPTY_LINES=n  standard input is n empty lines, one a read
     NO_THREAD=1    no thread can be made
     NO_CLOCK=1     the clock can't be read */
#define _GNU_SOURCE
#include <dlfcn.h>
#include <errno.h>
#include <pthread.h>
#include <stdlib.h>
#include <sys/syscall.h>
#include <time.h>
#include <unistd.h>

static long most = 1L << 40, reads_end = -1, writes_end = -1, empty_lines = -1;
static int interrupted, no_thread, no_clock, is_begun, turns[2];

static long number(const char *name, long otherwise) {
    const char *text = getenv(name);
    return text ? atol(text) : otherwise;
}

static void begin(void) {
    if (is_begun) return;
    is_begun = 1;
    most = number("MOST", most);
    reads_end = number("READS_END", -1);
    writes_end = number("WRITES_END", -1);
    empty_lines = number("EMPTY_LINES", -1);
    interrupted = number("INTERRUPTED", 0);
    no_thread = number("NO_THREAD", 0);
    no_clock = number("NO_CLOCK", 0);
}

/* How many of these bytes are moved, or -1: the device fails, or is interrupted. */
static long moved(int device, size_t count, long left) {
    if (interrupted && turns[device]++ % 2 == 0) return errno = EINTR, -1;
    if (left == 0) return errno = EIO, -1;
    if (left > 0 && (size_t)left < count) count = left;
    return count < (size_t)most ? (long)count : most;
}

ssize_t read(int fd, void *to, size_t count) {
    begin();
    if (fd != 0) return syscall(SYS_read, fd, to, count);
    if (empty_lines >= 0 && count) {
        *(char *)to = '\n';
        return empty_lines-- > 0 ? 1 : (empty_lines = 0);
    }
    long n = moved(0, count, reads_end);
    if (n < 0) return n;
    n = syscall(SYS_read, fd, to, n);
    if (n > 0 && reads_end > 0) reads_end -= n;
    return n;
}

ssize_t write(int fd, const void *from, size_t count) {
    begin();
    if (fd != 1) return syscall(SYS_write, fd, from, count);
    long n = moved(1, count, writes_end);
    if (n < 0) return n;
    n = syscall(SYS_write, fd, from, n);
    if (n > 0 && writes_end > 0) writes_end -= n;
    return n;
}

int pthread_create(pthread_t *to, const pthread_attr_t *how, void *(*call)(void *), void *given) {
    begin();
    if (no_thread) return EAGAIN;
    int (*real)(pthread_t *, const pthread_attr_t *, void *(*)(void *), void *) = dlsym(RTLD_NEXT, "pthread_create");
    return real(to, how, call, given);
}

int clock_gettime(clockid_t clock, struct timespec *to) {
    begin();
    if (no_clock) return errno = EINVAL, -1;
    return syscall(SYS_clock_gettime, clock, to);
}
