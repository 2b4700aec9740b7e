/* Laid before the C library: the wall clock and the monotonic clock go ahead by what a file tells. CLOCKS names it, and it has
   two numbers of eight bytes: so many nanoseconds are added to the one, and to the other. Waits and pauses end after 20
   milliseconds, so that the clocks are looked at soon. */
#define _GNU_SOURCE
#include <fcntl.h>
#include <stdint.h>
#include <stdlib.h>
#include <sys/epoll.h>
#include <sys/mman.h>
#include <sys/syscall.h>
#include <time.h>
#include <unistd.h>

static int64_t *added;

__attribute__((constructor)) static void begin(void) {
    const char *name = getenv("CLOCKS");
    int file = name ? open(name, O_RDONLY) : -1;
    if (file < 0) return;
    void *it = mmap(NULL, 2 * sizeof *added, PROT_READ, MAP_SHARED, file, 0);
    if (it != MAP_FAILED) added = it;
    close(file);
}

int clock_gettime(clockid_t clock, struct timespec *to) {
    long result = syscall(SYS_clock_gettime, clock, to);
    if (result || !added || (clock != CLOCK_REALTIME && clock != CLOCK_MONOTONIC)) return result;
    int64_t more = __atomic_load_n(&added[clock == CLOCK_MONOTONIC], __ATOMIC_SEQ_CST) + to->tv_nsec;
    to->tv_sec += more / 1000000000;
    to->tv_nsec = more % 1000000000;
    if (to->tv_nsec < 0) to->tv_sec--, to->tv_nsec += 1000000000;
    return 0;
}

int epoll_wait(int fd, struct epoll_event *to, int most, int patience) {
    if (added && (patience < 0 || patience > 20)) patience = 20;
    return syscall(SYS_epoll_wait, fd, to, most, patience);
}

int nanosleep(const struct timespec *pause, struct timespec *left) {
    struct timespec most = {0, 20000000};
    int is_long = added && (pause->tv_sec > 0 || pause->tv_nsec > most.tv_nsec);
    return syscall(SYS_nanosleep, is_long ? &most : pause, is_long ? NULL : left);
}
