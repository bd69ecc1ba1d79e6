/* Refuses allocations of the program into which it is loaded. Those that the program asks for behind the start of `main`
 * are counted in the file that REFUSE_COUNT names, 8 bytes. With REFUSE=N number N, from 1, gets no memory; with
 * REFUSE_ON=1 beside it, all from there on. */
#define _GNU_SOURCE
#include <dlfcn.h>
#include <errno.h>
#include <fcntl.h>
#include <stdatomic.h>
#include <stddef.h>
#include <stdint.h>
#include <stdlib.h>
#include <sys/mman.h>
#include <unistd.h>

extern void *__libc_malloc(size_t);
extern void *__libc_calloc(size_t, size_t);
extern void *__libc_realloc(void *, size_t);
extern void *__libc_memalign(size_t, size_t);

typedef int (*main_function)(int, char **, char **);

static _Atomic uint64_t own_count;
static _Atomic uint64_t *count = &own_count;
static uint64_t refused_number;
static int refuses_on, has_begun;
static main_function own_main;

/* Counts an allocation, and says whether it gets no memory. */
static int is_refused(void) {
    if (!has_begun) return 0;
    uint64_t number = atomic_fetch_add(count, 1) + 1;
    return refused_number && (number == refused_number || (refuses_on && number > refused_number));
}

void *malloc(size_t size) {
    if (is_refused()) return errno = ENOMEM, NULL;
    return __libc_malloc(size);
}

void *calloc(size_t many, size_t size) {
    if (is_refused()) return errno = ENOMEM, NULL;
    return __libc_calloc(many, size);
}

void *realloc(void *old, size_t size) {
    if (is_refused()) return errno = ENOMEM, NULL;
    return __libc_realloc(old, size);
}

void *memalign(size_t alignment, size_t size) {
    if (is_refused()) return errno = ENOMEM, NULL;
    return __libc_memalign(alignment, size);
}

void *aligned_alloc(size_t alignment, size_t size) { return memalign(alignment, size); }

int posix_memalign(void **place, size_t alignment, size_t size) {
    if (is_refused()) return ENOMEM;
    void *found = __libc_memalign(alignment, size);
    if (!found) return ENOMEM;
    *place = found;
    return 0;
}

/* The program's `main`, from whose start on allocations are counted. */
static int counted_main(int many, char **words, char **environment) {
    const char *path = getenv("REFUSE_COUNT"), *number = getenv("REFUSE");
    int file = path ? open(path, O_RDWR) : -1;
    if (file >= 0) {
        void *page = mmap(NULL, sizeof *count, PROT_READ | PROT_WRITE, MAP_SHARED, file, 0);
        if (page != MAP_FAILED) count = page;
        close(file);
    }
    refused_number = number ? strtoull(number, NULL, 10) : 0;
    refuses_on = getenv("REFUSE_ON") != NULL;
    has_begun = 1;
    return own_main(many, words, environment);
}

int __libc_start_main(main_function start, int many, char **words, void (*init)(void), void (*fini)(void),
                      void (*loader)(void), void *stack) {
    int (*next)(main_function, int, char **, void (*)(void), void (*)(void), void (*)(void), void *) =
        dlsym(RTLD_NEXT, "__libc_start_main");
    own_main = start;
    return next(counted_main, many, words, init, fini, loader, stack);
}
