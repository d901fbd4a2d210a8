/* All that the library takes from a C library: malloc, realloc, free, memcpy, memmove and memset. And a painted stack, to see how deep calls go. */
#include "bare.h"

void *memcpy(void *restrict to, const void *restrict from, size_t count) {
    void *at = to;
    __asm__ volatile("rep movsb" : "+D"(at), "+S"(from), "+c"(count) : : "memory");
    return to;
}

void *memmove(void *to, const void *from, size_t count) {
    uint8_t *end = (uint8_t *)to + count - 1;
    const uint8_t *last = (const uint8_t *)from + count - 1;
    if ((uintptr_t)to - (uintptr_t)from >= count) return memcpy(to, from, count);
    __asm__ volatile("std; rep movsb; cld" : "+D"(end), "+S"(last), "+c"(count) : : "memory");
    return to;
}

void *memset(void *to, int value, size_t count) {
    void *at = to;
    __asm__ volatile("rep stosb" : "+D"(at), "+c"(count) : "a"(value) : "memory");
    return to;
}

/* The arena grows upwards. Each block stands behind 16 bytes with its size. A freed block comes back only if it is the last one, or if all are free. Only
   trade_load, trade_fault and trade_drop call these; if the arena is too small, trade_load returns TRADE_MEMORY. */
static _Alignas(16) uint8_t arena[ARENA];
const size_t arena_size = sizeof arena;
static size_t top, blocks;
static int is_closed;
size_t arena_used, arena_highest, arena_calls;

#define SIZE(block) (((size_t *)(block))[-2])

static size_t rounded(size_t size) { return (size + 15) & ~(size_t)15; }

void arena_close(void) { is_closed = 1; }

static void count_call(void) {
    arena_calls++;
    if (is_closed) stop("the allocator was called after the load");
}

void *malloc(size_t size) {
    uint8_t *block = arena + top + 16;
    count_call();
    if (size > sizeof arena || rounded(size) + 16 > sizeof arena - top) return NULL;
    SIZE(block) = size;
    top += rounded(size) + 16;
    if (top > arena_highest) arena_highest = top;
    arena_used += size;
    blocks++;
    return block;
}

void free(void *block) {
    count_call();
    if (!block) return;
    arena_used -= SIZE(block);
    if (--blocks == 0) top = 0;
    else if ((uint8_t *)block + rounded(SIZE(block)) == arena + top) top = (size_t)((uint8_t *)block - arena) - 16;
}

void *realloc(void *block, size_t size) {
    void *moved = malloc(size);
    if (!moved || !block) return moved;
    memcpy(moved, block, size < SIZE(block) ? size : SIZE(block));
    free(block);
    return moved;
}

extern uint64_t stack[], stack_top[];
static const uint64_t paint = 0xa7a7a7a7a7a7a7a7;

void stack_paint(void) {
    uint64_t *end;
    __asm__ volatile("leaq -128(%%rsp), %0" : "=r"(end));
    for (volatile uint64_t *at = stack; at < end; at++) *at = paint;
}

size_t stack_used(void) {
    const uint64_t *at = stack;
    while (*at == paint) at++;
    return (size_t)(stack_top - at) * 8;
}
