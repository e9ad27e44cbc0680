// Refuses one request for memory of a program: preload it, and name the request by its number, from 1, in REFUSE. With no such
// number it writes how many requests there were to the file that COUNT names.
#include <errno.h>
#include <stdio.h>
#include <stdlib.h>

void *__libc_malloc(size_t size);
void *__libc_calloc(size_t count, size_t size);
void *__libc_realloc(void *block, size_t size);
void *__libc_memalign(size_t alignment, size_t size);

static int has_begun;
static long made, refused;

__attribute__((constructor)) static void begin(void) {
    const char *number = getenv("REFUSE");
    refused = number ? atol(number) : 0;
    has_begun = 1;
}

__attribute__((destructor)) static void end(void) {
    const char *path = getenv("COUNT");
    has_begun = 0;
    if (path) {
        FILE *file = fopen(path, "w");
        if (file) {
            fprintf(file, "%ld\n", made);
            fclose(file);
        }
    }
}

static int is_refused(void) {
    if (!has_begun || ++made != refused) {
        return 0;
    }
    errno = ENOMEM;
    return 1;
}

void *malloc(size_t size) {
    return is_refused() ? NULL : __libc_malloc(size);
}

void *calloc(size_t count, size_t size) {
    return is_refused() ? NULL : __libc_calloc(count, size);
}

void *realloc(void *block, size_t size) {
    return is_refused() ? NULL : __libc_realloc(block, size);
}

void *aligned_alloc(size_t alignment, size_t size) {
    return is_refused() ? NULL : __libc_memalign(alignment, size);
}

int posix_memalign(void **block, size_t alignment, size_t size) {
    if (is_refused()) {
        return ENOMEM;
    }
    *block = __libc_memalign(alignment, size);
    return *block ? 0 : ENOMEM;
}
