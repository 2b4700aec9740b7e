/* Laid before the C library: a disk that fails, or a machine that crashes. The calls that write, cut, sync and rename files are
   counted from 1 on. CALLS names a file with two numbers of eight bytes: the first one counts these calls, and the second one how
   often a file was read from its beginning.

     FAILS=n        the n-th call fails with EIO, and does nothing; with FAILS=n-m so do all up to the m-th
     CRASHES=n      at the n-th call the program is killed, before it
     CRASHES=n+     the same, after it
     CRASHES=n/     the same, after half of what it writes
     CRASHES=n!     before it, and the power fails: what was written or cut and isn't synced is as it was
     SLOW=n         each call takes n milliseconds more */
#define _GNU_SOURCE
#include <errno.h>
#include <fcntl.h>
#include <signal.h>
#include <stdint.h>
#include <stdio.h>
#include <stdlib.h>
#include <sys/mman.h>
#include <sys/syscall.h>
#include <time.h>
#include <unistd.h>

/* so many writes may wait to be synced */
enum { MOST = 256 };

static long fails_from, fails_to, crashes, slow;
static char how;
/* what is read at once of a file from its beginning on; its head alone is less */
static const size_t CHUNK = 4096;
static uint64_t own[2], *made = own;

__attribute__((constructor)) static void begin(void) {
    const char *fails = getenv("FAILS"), *crash = getenv("CRASHES"), *late = getenv("SLOW"), *calls = getenv("CALLS");
    char *end;
    if (fails) {
        fails_from = fails_to = strtol(fails, &end, 10);
        if (*end == '-') fails_to = atol(end + 1);
    }
    if (crash) crashes = strtol(crash, &end, 10), how = *end;
    slow = late ? atol(late) : 0;
    int file = calls ? open(calls, O_RDWR) : -1;
    if (file < 0) return;
    void *it = mmap(NULL, sizeof own, PROT_READ | PROT_WRITE, MAP_SHARED, file, 0);
    if (it != MAP_FAILED) made = it;
    close(file);
}

/* What isn't synced: the bytes that stood there before, and how long the file was. */
static struct undone {
    int fd;
    off_t at, size;
    ssize_t count;
    char *bytes;
} undone[MOST];
static int undone_count;

static void note(int fd, off_t at, size_t count) {
    if (undone_count == MOST) abort();
    char *bytes = malloc(count + 1);
    ssize_t had = bytes ? syscall(SYS_pread64, fd, bytes, count, at) : -1;
    off_t size = lseek(fd, 0, SEEK_END);
    if (had < 0 || size < 0) abort();
    undone[undone_count++] = (struct undone){fd, at, size, had, bytes};
}

static void forget(int fd) {
    int left = 0;
    for (int i = 0; i < undone_count; i++)
        if (undone[i].fd != fd) undone[left++] = undone[i];
    undone_count = left;
}

static void die(void) {
    while (how == '!' && undone_count-- > 0) {
        struct undone *it = &undone[undone_count];
        syscall(SYS_pwrite64, it->fd, it->bytes, it->count, it->at);
        syscall(SYS_ftruncate, it->fd, it->size);
    }
    kill(getpid(), SIGKILL);
    for (;;) pause();
}

/* Before a call: its number, or 0 where it fails. */
static uint64_t before(void) {
    uint64_t n = __atomic_add_fetch(made, 1, __ATOMIC_SEQ_CST);
    struct timespec pause = {slow / 1000, slow % 1000 * 1000000};
    if (slow) syscall(SYS_clock_nanosleep, CLOCK_MONOTONIC, 0, &pause, NULL);
    if ((long)n == crashes && (how == 0 || how == '!')) die();
    if ((long)n < fails_from || (long)n > fails_to) return n;
    errno = EIO;
    return 0;
}

static long after(uint64_t n, long result) {
    if ((long)n == crashes) die();
    return result;
}

static ssize_t written(int fd, const void *from, size_t count, off_t at) {
    uint64_t n = before();
    if (!n) return -1;
    if ((long)n == crashes && how == '/') count /= 2;
    if (how == '!') note(fd, at, count);
    return after(n, syscall(SYS_pwrite64, fd, from, count, at));
}

ssize_t pwrite(int fd, const void *from, size_t count, off_t at) { return written(fd, from, count, at); }
ssize_t pwrite64(int fd, const void *from, size_t count, off64_t at) { return written(fd, from, count, at); }

static ssize_t was_read(int fd, void *to, size_t count, off_t at) {
    if (at == 0 && count >= CHUNK) __atomic_add_fetch(&made[1], 1, __ATOMIC_SEQ_CST);
    return syscall(SYS_pread64, fd, to, count, at);
}

ssize_t pread(int fd, void *to, size_t count, off_t at) { return was_read(fd, to, count, at); }
ssize_t pread64(int fd, void *to, size_t count, off64_t at) { return was_read(fd, to, count, at); }

#define CALL(name, parameters, call) \
    int name parameters { \
        uint64_t n = before(); \
        return n ? (int)after(n, call) : -1; \
    }
static int synced(int fd, int number) {
    int result = syscall(number, fd);
    if (!result) forget(fd);
    return result;
}

static int cut(int fd, off_t size) {
    off_t end = lseek(fd, 0, SEEK_END);
    if (how == '!') note(fd, size, end > size ? end - size : 0);
    return syscall(SYS_ftruncate, fd, size);
}

CALL(fsync, (int fd), synced(fd, SYS_fsync))
CALL(fdatasync, (int fd), synced(fd, SYS_fdatasync))
CALL(ftruncate, (int fd, off_t size), cut(fd, size))
CALL(ftruncate64, (int fd, off64_t size), cut(fd, size))
CALL(rename, (const char *from, const char *to), syscall(SYS_rename, from, to))
CALL(renameat, (int in, const char *from, int out, const char *to), syscall(SYS_renameat, in, from, out, to))
