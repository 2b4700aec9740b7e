/* Laid before the C library: refuses requests for memory. Either those whose numbers are REFUSE and the next ones, TOGETHER of
   them (1 where it is missing); that one was refused is told by the file that REFUSED names. Or each of which a file tells: RATE
   names it, and it has four numbers of eight bytes, or three. Of so many requests as the first one says one is refused, and none
   while it is 0; the second one counts the requests meanwhile, and the third one those that were refused. The fourth one says
   how many are refused in a row (1 where it is 0 or missing). */
#include <errno.h>
#include <fcntl.h>
#include <stdint.h>
#include <stdlib.h>
#include <sys/mman.h>
#include <unistd.h>

extern void *__libc_malloc(size_t);
extern void *__libc_calloc(size_t, size_t);
extern void *__libc_realloc(void *, size_t);
extern void *__libc_memalign(size_t, size_t);

static long first, together = 1, made;
static uint64_t *rate;

static long number(const char *name, long otherwise) {
    const char *text = getenv(name);
    return text ? atol(text) : otherwise;
}

__attribute__((constructor)) static void begin(void) {
    const char *name = getenv("RATE");
    int file = name ? open(name, O_RDWR) : -1;
    first = number("REFUSE", 0);
    together = number("TOGETHER", 1);
    if (file < 0) return;
    void *it = mmap(NULL, 4 * sizeof *rate, PROT_READ | PROT_WRITE, MAP_SHARED, file, 0);
    if (it != MAP_FAILED) rate = it;
    close(file);
}

/* Whether this request is one of those that the file tells of. */
static int is_at_rate(void) {
    uint64_t one_of = rate ? __atomic_load_n(&rate[0], __ATOMIC_SEQ_CST) : 0;
    if (!one_of) return 0;
    uint64_t in_a_row = __atomic_load_n(&rate[3], __ATOMIC_SEQ_CST);
    if (__atomic_add_fetch(&rate[1], 1, __ATOMIC_SEQ_CST) % one_of >= (in_a_row ? in_a_row : 1)) return 0;
    __atomic_add_fetch(&rate[2], 1, __ATOMIC_SEQ_CST);
    return 1;
}

/* Whether this request is one of those with these numbers. */
static int is_numbered(void) {
    if (first <= 0) return 0;
    long at = __atomic_add_fetch(&made, 1, __ATOMIC_SEQ_CST) - first;
    if (at < 0 || at >= together) return 0;
    close(open(getenv("REFUSED"), O_CREAT | O_WRONLY, 0600));
    return 1;
}

static int refused(void) {
    if (!is_numbered() && !is_at_rate()) return 0;
    errno = ENOMEM;
    return 1;
}

void *malloc(size_t n) { return refused() ? NULL : __libc_malloc(n); }
void *calloc(size_t n, size_t m) { return refused() ? NULL : __libc_calloc(n, m); }
void *realloc(void *p, size_t n) { return refused() ? NULL : __libc_realloc(p, n); }
void *memalign(size_t a, size_t n) { return refused() ? NULL : __libc_memalign(a, n); }
void *aligned_alloc(size_t a, size_t n) { return refused() ? NULL : __libc_memalign(a, n); }
int posix_memalign(void **to, size_t a, size_t n) {
    if (refused()) return ENOMEM;
    *to = __libc_memalign(a, n);
    return *to ? 0 : ENOMEM;
}
