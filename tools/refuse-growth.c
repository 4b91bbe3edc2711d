/* Refuses one growth of a program's memory: the one of the number in REFUSE_GROWTH, counted from 1 over malloc, calloc, realloc and the aligned
   ones. Their number is counted in the file that COUNT_GROWTHS names, if one is named, as a word of the machine.

       cc -shared -fPIC -O2 -o refuse-growth.so tools/refuse-growth.c
       REFUSE_GROWTH=17 LD_PRELOAD=./refuse-growth.so PROGRAM ..
*/
#define _GNU_SOURCE
#include <errno.h>
#include <fcntl.h>
#include <stddef.h>
#include <stdlib.h>
#include <sys/mman.h>
#include <unistd.h>

extern void *__libc_malloc(size_t size);
extern void *__libc_calloc(size_t count, size_t size);
extern void *__libc_realloc(void *memory, size_t size);
extern void *__libc_memalign(size_t alignment, size_t size);

static unsigned long own_count;
static unsigned long *growths;
static unsigned long refused;

/* Where growths are counted: in the named file, so that the count outlives a program that ends at once. */
static unsigned long *counter(void) {
    const char *path = getenv("COUNT_GROWTHS");
    int file = path ? open(path, O_RDWR | O_CREAT | O_TRUNC, 0644) : -1;
    if (file < 0 || ftruncate(file, sizeof own_count)) {
        return &own_count;
    }
    void *shared = mmap(NULL, sizeof own_count, PROT_READ | PROT_WRITE, MAP_SHARED, file, 0);
    close(file);
    return shared == MAP_FAILED ? &own_count : shared;
}

/* Whether this growth is the one to be refused. */
static int is_refused(void) {
    if (!growths) {
        const char *number = getenv("REFUSE_GROWTH");
        refused = number ? strtoul(number, NULL, 10) : 0;
        growths = counter();
    }
    if (__atomic_add_fetch(growths, 1, __ATOMIC_SEQ_CST) != refused) {
        return 0;
    }
    errno = ENOMEM;
    return 1;
}

void *malloc(size_t size) { return is_refused() ? NULL : __libc_malloc(size); }

void *calloc(size_t count, size_t size) { return is_refused() ? NULL : __libc_calloc(count, size); }

/* A block that shrinks is no growth, but the C library need not say which one does: each call counts. */
void *realloc(void *memory, size_t size) { return is_refused() ? NULL : __libc_realloc(memory, size); }

void *memalign(size_t alignment, size_t size) { return is_refused() ? NULL : __libc_memalign(alignment, size); }

void *aligned_alloc(size_t alignment, size_t size) { return memalign(alignment, size); }

int posix_memalign(void **memory, size_t alignment, size_t size) {
    *memory = memalign(alignment, size);
    return *memory ? 0 : ENOMEM;
}
