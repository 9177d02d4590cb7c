/* Refuses one request for memory, the one that the variable REFUSE names, counted from 1, and says so on standard
   error. For LD_PRELOAD: cc -shared -fPIC -O2 -o refuse_malloc.so refuse_malloc.c */
#include <errno.h>
#include <stdlib.h>
#include <unistd.h>

void *__libc_malloc(size_t), *__libc_calloc(size_t, size_t), *__libc_realloc(void *, size_t),
    *__libc_memalign(size_t, size_t);

static const char word[] = "memory: refused\n";
static long wanted = -1, requests;

static int refuses(void) {
    if (wanted < 0) wanted = getenv("REFUSE") ? atol(getenv("REFUSE")) : 0;
    if (++requests != wanted) return 0;
    if (write(2, word, sizeof word - 1) < 0) _exit(70);
    errno = ENOMEM;
    return 1;
}

void *malloc(size_t n) { return refuses() ? 0 : __libc_malloc(n); }
void *calloc(size_t n, size_t k) { return refuses() ? 0 : __libc_calloc(n, k); }
void *realloc(void *p, size_t n) { return refuses() ? 0 : __libc_realloc(p, n); }
void *aligned_alloc(size_t a, size_t n) { return refuses() ? 0 : __libc_memalign(a, n); }
int posix_memalign(void **p, size_t a, size_t n) { return refuses() || !(*p = __libc_memalign(a, n)) ? ENOMEM : 0; }
