/* Laid before the C library: waits for sockets that fail, or don't end. WAITS=n says which one does, by the order in which the
   program made the places where it waits (`epoll_create1`). It fails once the file exists that FAILS names. It doesn't end while
   the file exists that HELD names; the file HELD.here is there once it is so. Such waits end after 20 milliseconds, so that
   the files are looked for soon. While the file exists that UNWATCHED names, no further socket can be waited for. */
#define _GNU_SOURCE
#include <errno.h>
#include <fcntl.h>
#include <stdio.h>
#include <stdlib.h>
#include <sys/epoll.h>
#include <sys/syscall.h>
#include <unistd.h>

static const char *fails, *held, *unwatched;
static char here[4096];
static int number, made, place = -1;

__attribute__((constructor)) static void begin(void) {
    const char *which = getenv("WAITS");
    fails = getenv("FAILS");
    held = getenv("HELD");
    if (held) snprintf(here, sizeof here, "%s.here", held);
    unwatched = getenv("UNWATCHED");
    number = which ? atoi(which) : 0;
}

int epoll_create1(int how) {
    int fd = syscall(SYS_epoll_create1, how);
    if (fd >= 0 && ++made == number) place = fd;
    return fd;
}

static void hold(void) {
    int mark = open(here, O_WRONLY | O_CREAT, 0600);
    if (mark >= 0) close(mark);
    while (access(held, F_OK) == 0) usleep(1000);
}

int epoll_wait(int fd, struct epoll_event *to, int most, int patience) {
    if (fails && fd == place && access(fails, F_OK) == 0) return errno = EBADF, -1;
    if (held && fd == place && access(held, F_OK) == 0) hold();
    if ((fails || (held && fd == place)) && (patience < 0 || patience > 20)) patience = 20;
    return syscall(SYS_epoll_wait, fd, to, most, patience);
}

int epoll_ctl(int fd, int what, int socket, struct epoll_event *how) {
    if (unwatched && what == EPOLL_CTL_ADD && access(unwatched, F_OK) == 0) return errno = ENOSPC, -1;
    return syscall(SYS_epoll_ctl, fd, what, socket, how);
}
