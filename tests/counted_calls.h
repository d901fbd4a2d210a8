/* Counts the calls of the allocator of a program in C, for tests of the library: compile with -DCOUNTED, and link with
   -Wl,--wrap=malloc,--wrap=realloc,--wrap=free. */
#ifndef COUNTED_CALLS_H
#define COUNTED_CALLS_H

#include <stddef.h>

/* Calls of malloc and realloc, blocks that are not freed, and the number of the call that is refused. */
static long calls, blocks, fail_at;

#ifdef COUNTED
void *__real_malloc(size_t size);
void *__real_realloc(void *old, size_t size);
void __real_free(void *old);

void *__wrap_malloc(size_t size) {
    void *made = ++calls == fail_at ? NULL : __real_malloc(size);
    blocks += made != NULL;
    return made;
}

void *__wrap_realloc(void *old, size_t size) {
    void *made = ++calls == fail_at ? NULL : __real_realloc(old, size);
    blocks += made != NULL && old == NULL;
    return made;
}

void __wrap_free(void *old) {
    blocks -= old != NULL;
    __real_free(old);
}
#endif
#endif
