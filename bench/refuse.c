/* Refuses one allocation of a program that is started with this library before the C library (LD_PRELOAD): that of the number REFUSE,
   counted from 1 over all threads. Where so many are asked for, it makes the file REFUSED. */
#include <errno.h>
#include <fcntl.h>
#include <stdatomic.h>
#include <stdlib.h>
#include <unistd.h>

void *__libc_malloc(size_t size);
void *__libc_calloc(size_t count, size_t size);
void *__libc_realloc(void *old, size_t size);
void *__libc_memalign(size_t align, size_t size);

static atomic_long asked;
static long refused;

static int refuses(void) {
    if (refused == 0) {
        const char *text = getenv("REFUSE");
        refused = text ? atol(text) : -1;
    }
    if (atomic_fetch_add(&asked, 1) + 1 != refused) return 0;
    const char *path = getenv("REFUSED");
    int file = path ? open(path, O_WRONLY | O_CREAT, 0600) : -1;
    if (file >= 0) close(file);
    return 1;
}

static void *none(void) {
    errno = ENOMEM;
    return NULL;
}

void *malloc(size_t size) { return refuses() ? none() : __libc_malloc(size); }

void *calloc(size_t count, size_t size) { return refuses() ? none() : __libc_calloc(count, size); }

void *realloc(void *old, size_t size) { return refuses() ? none() : __libc_realloc(old, size); }

void *memalign(size_t align, size_t size) { return refuses() ? none() : __libc_memalign(align, size); }

void *aligned_alloc(size_t align, size_t size) { return refuses() ? none() : __libc_memalign(align, size); }

int posix_memalign(void **made, size_t align, size_t size) {
    void *got = refuses() ? NULL : __libc_memalign(align, size);
    if (!got) return ENOMEM;
    *made = got;
    return 0;
}
