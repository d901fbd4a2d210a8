/* footprint SCENARIO: loads a scenario, runs it to rest with each signal once, and prints what that took: bytes of heap after the load and at most, calls of the
   allocator, and bytes of stack of the load and of turns. Linked with -Wl,--wrap=malloc,--wrap=realloc,--wrap=free. */
#include "trade.h"

#include <malloc.h>
#include <pthread.h>
#include <stdio.h>
#include <stdlib.h>
#include <string.h>

enum { MOST = 1 << 20, STACK = 1 << 20, SIGNALS = 3, PAINT = 0xa7 };

void *__real_malloc(size_t size);
void *__real_realloc(void *block, size_t size);
void __real_free(void *block);

static size_t used, highest, calls;
static uint8_t text[MOST], *stack;
static size_t length;

static void count(size_t more, size_t less) {
    calls++;
    used += more - less;
    if (used > highest) highest = used;
}

/* Each block has its size before it. */
void *__wrap_malloc(size_t size) {
    size_t *block = __real_malloc(size + 16);
    if (!block) return NULL;
    block[0] = size;
    count(size, 0);
    return block + 2;
}

void __wrap_free(void *block) {
    if (!block) return;
    count(0, ((size_t *)block)[-2]);
    __real_free((size_t *)block - 2);
}

void *__wrap_realloc(void *block, size_t size) {
    void *moved = __wrap_malloc(size);
    if (!moved || !block) return moved;
    size_t before = ((size_t *)block)[-2];
    memcpy(moved, block, before < size ? before : size);
    __wrap_free(block);
    return moved;
}

static size_t stack_used(void) {
    size_t at = 0;
    while (at < STACK && stack[at] == PAINT) at++;
    return STACK - at;
}

static void run(trade_world *world) {
    uint32_t leaf = 0, taken;
    do {
        uint8_t line[64];
        size_t written;
        trade_run(world, 1000, &leaf, &taken, line, sizeof line, &written);
    } while (taken > 0);
}

static trade_world world = TRADE_EMPTY;
static uint32_t status;

static void *load(void *nothing) {
    (void)nothing;
    status = trade_load(text, length, &world);
    return NULL;
}

static void *turns(void *nothing) {
    (void)nothing;
    run(&world);
    for (uint32_t leaf = 0; leaf < trade_leaves(&world); leaf++)
        for (uint32_t signal = 0; signal < SIGNALS; signal++) trade_signal(&world, leaf, signal);
    run(&world);
    return NULL;
}

static void *nothing_at_all(void *nothing) { return nothing; }

/* The bytes of stack that a function takes on a thread of its own, with what a thread takes. */
static size_t stack_of(void *(*function)(void *)) {
    pthread_attr_t attributes;
    pthread_t thread;
    memset(stack, PAINT, STACK);
    pthread_attr_init(&attributes);
    if (pthread_attr_setstack(&attributes, stack, STACK) || pthread_create(&thread, &attributes, function, NULL)) exit(1);
    pthread_join(thread, NULL);
    return stack_used();
}

int main(int argc, char **argv) {
    FILE *file = argc == 2 ? fopen(argv[1], "rb") : NULL;
    if (!file) return fprintf(stderr, "usage: footprint SCENARIO\n"), 2;
    length = fread(text, 1, sizeof text, file);
    fclose(file);
    stack = aligned_alloc(4096, STACK);
    size_t of_thread = stack_of(nothing_at_all);
    used = highest = calls = 0;
    size_t of_load = stack_of(load) - of_thread;
    if (status != TRADE_LOADED) return fprintf(stderr, "not loaded: %u\n", (unsigned)status), 1;
    size_t after = used, most = highest, of_calls = calls, of_turns = stack_of(turns) - of_thread;
    printf("%zu %zu %zu %zu %zu %zu\n", after, most, of_calls, calls - of_calls, of_load, of_turns);
    trade_drop(&world);
    return used ? 1 : 0;
}
