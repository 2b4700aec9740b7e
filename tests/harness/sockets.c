/* Laid before the C library: sockets that take little, or are interrupted. Each is asked for by a variable of the environment:

     MOUTHFUL=n     a write takes n bytes at most, and the socket isn't full then
     INTERRUPTED=1  each second read or write is interrupted */
#define _GNU_SOURCE
#include <errno.h>
#include <stdlib.h>
#include <sys/socket.h>
#include <sys/syscall.h>
#include <unistd.h>

static size_t mouthful = (size_t)1 << 40;
static int interrupted, turns;

__attribute__((constructor)) static void begin(void) {
    const char *most = getenv("MOUTHFUL");
    if (most) mouthful = (size_t)atol(most);
    interrupted = getenv("INTERRUPTED") != NULL;
}

static int is_interrupted(void) {
    if (!interrupted || __atomic_fetch_add(&turns, 1, __ATOMIC_SEQ_CST) % 2) return 0;
    errno = EINTR;
    return 1;
}

ssize_t recv(int fd, void *to, size_t count, int how) {
    if (is_interrupted()) return -1;
    return syscall(SYS_recvfrom, fd, to, count, how, NULL, NULL);
}

ssize_t send(int fd, const void *from, size_t count, int how) {
    if (is_interrupted()) return -1;
    return syscall(SYS_sendto, fd, from, count < mouthful ? count : mouthful, how, NULL, 0);
}
