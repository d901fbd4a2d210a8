/* many_signals SCENARIO COUNT: submits COUNT signals through library/trade.h, one after the other, each at rest: each signal of each leaf in turn.

   After each one trade_run gives turns until all is at rest, now few at once and now many, and from one leaf on and from another. Then all leaves together may
   have taken at most the steps that the signal has, and each leaf at most its budget. The first expectation that fails is printed, and the status is then 1.
   Else it prints how many steps the start took, how many the signals took, and how many of them took all of their steps; how often loading called the
   allocator, how often it was called later up to the drop, and how many blocks are left (with COUNTED, as tests/counted_calls.h says). */
#include "counted_calls.h"
#include "trade.h"

#include <inttypes.h>
#include <stdio.h>
#include <stdlib.h>

enum { MOST_TEXT = 1 << 20, MOST_LEAVES = 64, MOST_SIGNALS = 3 };

#define EXPECT(test) ((test) ? (void)0 : (printf("line %d: %s\n", __LINE__, #test), exit(1)))

static uint8_t text[MOST_TEXT];

/* The signals that there are, with their bounds. */
static struct { uint32_t leaf, signal; trade_reaction reaction; } all[MOST_LEAVES * MOST_SIGNALS];

static size_t find_signals(trade_world *world) {
    size_t count = 0;
    for (uint32_t leaf = 0; leaf < trade_leaves(world); leaf++)
        for (uint32_t signal = 0; trade_read_reaction(world, leaf, signal, &all[count].reaction); signal++) {
            all[count].leaf = leaf;
            all[count++].signal = signal;
        }
    return count;
}

/* The steps that all leaves have taken. None has taken more than its budget. */
static uint64_t all_steps(trade_world *world) {
    uint64_t sum = 0;
    for (uint32_t node = 0; node < trade_nodes(world); node++) {
        trade_account account;
        EXPECT(trade_read_account(world, node, &account) && account.steps <= account.budget);
        sum += account.steps;
    }
    return sum;
}

/* Turns until all is at rest, at most so many at once, and as many as are taken together. */
static uint64_t run_to_rest(trade_world *world, uint32_t leaf, uint32_t most) {
    uint64_t sum = 0;
    for (uint32_t taken = 1; taken > 0; sum += taken) {
        uint8_t line[64];
        size_t written = 77;
        bool rested = trade_at_rest(world);
        uint32_t event = trade_run(world, most, &leaf, &taken, line, sizeof line, &written);
        EXPECT(taken <= most && (taken == 0) == rested && (taken == 0) == (event == TRADE_IDLE));
        EXPECT((event == TRADE_LINE) == (written > 0) && written <= sizeof line);
        EXPECT(taken == 0 || leaf < trade_leaves(world));
    }
    return sum;
}

int main(int argc, char **argv) {
    if (argc != 3) return 2;
    FILE *file = fopen(argv[1], "rb");
    if (!file) return 4;
    size_t length = fread(text, 1, sizeof text, file);
    fclose(file);
    trade_world world = TRADE_EMPTY;
    calls = blocks = fail_at = 0;
    EXPECT(trade_load(text, length, &world) == TRADE_LOADED);
    long of_load = calls;
    calls = 0;
    uint64_t start = run_to_rest(&world, 0, UINT32_MAX), steps = 0, full = 0;
    EXPECT(start == all_steps(&world));
    size_t signals = find_signals(&world);
    EXPECT(signals > 0);
    long count = atol(argv[2]);
    for (long at = 0; at < count; at++) {
        size_t which = (size_t)at % signals;
        trade_reaction reaction = all[which].reaction;
        EXPECT(trade_signal(&world, all[which].leaf, all[which].signal) == TRADE_SUBMITTED && !trade_at_rest(&world));
        uint64_t taken = run_to_rest(&world, (uint32_t)(at % 7), at % 3 == 0 ? UINT32_MAX : 1 + (uint32_t)(at % 11));
        EXPECT(taken > 1 && taken <= reaction.all && reaction.steps <= reaction.all);
        steps += taken;
        full += taken == reaction.all;
        if (which == 0) EXPECT(start + steps == all_steps(&world));
    }
    EXPECT(start + steps == all_steps(&world));
    long later = calls;
    trade_drop(&world);
    printf("start %" PRIu64 " steps %" PRIu64 " full %" PRIu64 " load %ld later %ld left %ld\n", start, steps, full, of_load, later, blocks);
    return 0;
}
