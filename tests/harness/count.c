/* Laid before the C library: counts the requests for memory by their sizes, in the file that COUNTS names. It has a number of
   eight bytes for each size below MOST, and one more for all others. */
#include <errno.h>
#include <fcntl.h>
#include <stdint.h>
#include <stdlib.h>
#include <sys/mman.h>
#include <unistd.h>

#define MOST 65536

extern void *__libc_malloc(size_t);
extern void *__libc_calloc(size_t, size_t);
extern void *__libc_realloc(void *, size_t);
extern void *__libc_memalign(size_t, size_t);

static uint64_t *counts;

__attribute__((constructor)) static void begin(void) {
    const char *name = getenv("COUNTS");
    const size_t room = (MOST + 1) * sizeof *counts;
    if (!name) return;
    int file = open(name, O_CREAT | O_RDWR, 0600);
    if (file < 0) return;
    if (!ftruncate(file, room)) {
        void *it = mmap(NULL, room, PROT_READ | PROT_WRITE, MAP_SHARED, file, 0);
        if (it != MAP_FAILED) counts = it;
    }
    close(file);
}

static void count(size_t n) {
    if (counts) __atomic_fetch_add(&counts[n < MOST ? n : MOST], 1, __ATOMIC_SEQ_CST);
}

void *malloc(size_t n) { count(n); return __libc_malloc(n); }
void *calloc(size_t n, size_t m) { count(n * m); return __libc_calloc(n, m); }
void *realloc(void *p, size_t n) { count(n); return __libc_realloc(p, n); }
void *memalign(size_t a, size_t n) { count(n); return __libc_memalign(a, n); }
void *aligned_alloc(size_t a, size_t n) { count(n); return __libc_memalign(a, n); }
int posix_memalign(void **to, size_t a, size_t n) {
    count(n);
    *to = __libc_memalign(a, n);
    return *to ? 0 : ENOMEM;
}
