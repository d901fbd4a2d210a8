/* Blocks of the C library: malloc.c is a program `malloc TIMES SIZE`, which does what `benchmark heap TIMES SIZE` does, by `malloc` and by `calloc`, and
 * prints the same lines. Memory that is free goes back to the system before each round, so that the first blocks of a round touch new pages. */
#include <malloc.h>
#include <stdio.h>
#include <stdlib.h>
#include <string.h>
#include <time.h>

enum { BYTES = 262144, PAIRS = 65536 };

static long long now(void) {
    struct timespec t;
    clock_gettime(CLOCK_MONOTONIC, &t);
    return t.tv_sec * 1000000000LL + t.tv_nsec;
}

static unsigned char *block(int clear, size_t size) {
    unsigned char *bytes = clear ? calloc(1, size) : malloc(size);
    if (!bytes)
        exit(1);
    *(volatile unsigned char *)bytes = 0;
    return bytes;
}

static long long fill(int clear, unsigned char **blocks, int count, size_t size) {
    long long start = now();
    for (int i = 0; i < count; i++)
        blocks[i] = block(clear, size);
    return now() - start;
}

static long long drain(unsigned char **blocks, int count) {
    long long start = now();
    for (int i = count; i > 0; i--)
        free(blocks[i - 1]);
    return now() - start;
}

static long long pairs(int clear, size_t size) {
    long long start = now();
    for (int i = 0; i < PAIRS; i++)
        free(block(clear, size));
    return now() - start;
}

int main(int words, char **word) {
    if (words != 3)
        return 1;
    int times = atoi(word[1]), size = atoi(word[2]), count = BYTES / size - 1;
    unsigned char **blocks = calloc(count + 1, sizeof *blocks);
    for (int clear = 0; clear < 2; clear++) {
        const char *name = clear ? "calloc" : "malloc";
        long long first = 0, freed = 0, again = 0, alone = 0, beside = 0;
        for (int i = 0; i < times; i++) {
            malloc_trim(0);
            first += fill(clear, blocks, count, size);
            freed += drain(blocks, count);
            again += fill(clear, blocks, count, size);
            beside += pairs(clear, size);
            drain(blocks, count);
            alone += pairs(clear, size);
        }
        long long each = (long long)times * count, pair = (long long)times * PAIRS;
        fprintf(stderr, "%s first alloc: %lld in %lld ns\n", name, each, first);
        fprintf(stderr, "%s free: %lld in %lld ns\n", name, each, freed);
        fprintf(stderr, "%s alloc again: %lld in %lld ns\n", name, each, again);
        fprintf(stderr, "%s alloc and free, no other block: %lld in %lld ns\n", name, pair, alone);
        fprintf(stderr, "%s alloc and free, all others in use: %lld in %lld ns\n", name, pair, beside);
    }
    printf("%d\n", count);
    return 0;
}
