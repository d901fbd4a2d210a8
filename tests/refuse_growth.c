/* Refuses one growth of host memory of a program, for tests. It is built as a shared object and put before the C library
   by LD_PRELOAD.

   GROWTH_REFUSED  the number of the growth to refuse, from 1; without it none is refused
   GROWTH_COUNT    a file that gets the number of growths that the program asked for

   A growth is a call of malloc or realloc between the start of `main` and the end of the process. */
#define _GNU_SOURCE
#include <dlfcn.h>
#include <stddef.h>
#include <stdio.h>
#include <stdlib.h>

static void *(*next_malloc)(size_t);
static void *(*next_realloc)(void *, size_t);
static unsigned long asked, refused;
static int counts;

__attribute__((constructor)) static void start(void) {
    const char *number = getenv("GROWTH_REFUSED");
    refused = number ? strtoul(number, NULL, 10) : 0;
    counts = 1;
}

__attribute__((destructor)) static void end(void) {
    counts = 0;
    const char *path = getenv("GROWTH_COUNT");
    FILE *file = path ? fopen(path, "w") : NULL;
    if (file) {
        fprintf(file, "%lu\n", asked);
        fclose(file);
    }
}

static int is_refused(void) { return counts && ++asked == refused; }

void *malloc(size_t size) {
    if (!next_malloc) {
        next_malloc = (void *(*)(size_t))dlsym(RTLD_NEXT, "malloc");
    }
    return is_refused() ? NULL : next_malloc(size);
}

void *realloc(void *block, size_t size) {
    if (!next_realloc) {
        next_realloc = (void *(*)(void *, size_t))dlsym(RTLD_NEXT, "realloc");
    }
    return is_refused() ? NULL : next_realloc(block, size);
}
