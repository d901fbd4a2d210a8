/* turns_by_library SCENARIO TURNS HOW: takes the turns of a list by the C library, and prints the nanoseconds of a turn.

   Lines of the list are a name and a number. HOW is `turns` for calls of trade_turns, `turn` for a call of trade_turn for each. Lines are not printed. */
#define _POSIX_C_SOURCE 199309L
#include "trade.h"

#include <stdio.h>
#include <stdlib.h>
#include <string.h>
#include <time.h>

enum { MOST_TEXT = 1 << 20, MOST_LINES = 1 << 20 };

static uint8_t text[MOST_TEXT];
static uint32_t leaves[MOST_LINES], counts[MOST_LINES];

static double seconds(void) {
    struct timespec now;
    clock_gettime(CLOCK_PROCESS_CPUTIME_ID, &now);
    return (double)now.tv_sec + (double)now.tv_nsec / 1e9;
}

/* Reads the list of turns: the number of its lines. */
static size_t read_turns(trade_world *world, const char *name) {
    FILE *file = fopen(name, "rb");
    size_t lines = 0;
    char leaf[17];
    if (!file) exit(4);
    while (lines < MOST_LINES && fscanf(file, "%16s %u", leaf, &counts[lines]) == 2) {
        leaves[lines] = trade_leaf(world, (const uint8_t *)leaf, strlen(leaf));
        if (leaves[lines++] == TRADE_NONE) exit(1);
    }
    fclose(file);
    return lines;
}

int main(int argc, char **argv) {
    trade_world world = TRADE_EMPTY;
    if (argc != 4) return 2;
    FILE *file = fopen(argv[1], "rb");
    if (!file) return 4;
    size_t length = fread(text, 1, sizeof text, file), written;
    fclose(file);
    if (trade_load(text, length, &world) != TRADE_LOADED) return 1;
    size_t lines = read_turns(&world, argv[2]);
    bool each = !strcmp(argv[3], "turn");
    uint8_t line[64];
    uint64_t turns = 0;
    double start = seconds();
    for (size_t at = 0; at < lines; at++) {
        uint32_t left = counts[at], taken;
        turns += left;
        if (each)
            for (; left > 0; left--) trade_turn(&world, leaves[at], line, sizeof line, &written);
        else
            for (; left > 0 && (trade_turns(&world, leaves[at], left, &taken, line, sizeof line, &written), taken > 0);) left -= taken;
    }
    printf("%.2f\n", (seconds() - start) / (double)turns * 1e9);
    trade_drop(&world);
    return 0;
}
