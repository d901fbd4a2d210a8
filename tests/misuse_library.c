/* misuse_library ACCEPTED SIGNALLED REFUSED: calls of library/trade.h with numbers that are out of range, buffers that are too small, empty handles, no text.

   The first file is examples/echo.toml, the second examples/uart_eth_timer.toml, the third a scenario that is refused. It prints the expectations that fail,
   and ends with 1 where one does. */
#include "trade.h"

#include <stdio.h>
#include <stdlib.h>
#include <string.h>

enum { MOST_TEXT = 1 << 20, UNTOUCHED = 0x5a };

static int failed;

#define EXPECT(test) ((test) ? (void)0 : (void)(failed = 1, printf("line %d: %s\n", __LINE__, #test)))

static uint8_t text[MOST_TEXT];

static size_t read_file(const char *name) {
    FILE *file = fopen(name, "rb");
    if (!file) exit(4);
    size_t length = fread(text, 1, sizeof text, file);
    fclose(file);
    return length;
}

static bool is_untouched(const void *bytes, size_t length) {
    for (size_t at = 0; at < length; at++)
        if (((const uint8_t *)bytes)[at] != UNTOUCHED) return false;
    return true;
}

static trade_account untouched_account(void) {
    trade_account account;
    memset(&account, UNTOUCHED, sizeof account);
    return account;
}

/* Every call on a handle that holds nothing. */
static void use_empty(trade_world *world) {
    uint8_t buffer[8];
    size_t written = 77;
    uint32_t taken = 77, leaf = 5;
    trade_account account = untouched_account();
    trade_budget budget;
    trade_reaction reaction;
    memset(&budget, UNTOUCHED, sizeof budget);
    memset(&reaction, UNTOUCHED, sizeof reaction);
    memset(buffer, UNTOUCHED, sizeof buffer);
    EXPECT(trade_nodes(world) == 0 && trade_leaves(world) == 0);
    EXPECT(trade_leaf(world, (const uint8_t *)"cli", 3) == TRADE_NONE);
    EXPECT(trade_node(world, 0) == TRADE_NONE);
    EXPECT(!trade_label(world, 0, buffer, sizeof buffer, &written));
    EXPECT(!trade_read_account(world, 0, &account) && is_untouched(&account.quota, sizeof account.quota));
    EXPECT(!trade_read_budget(world, 0, &budget) && is_untouched(&budget, sizeof budget));
    EXPECT(!trade_read_reaction(world, 0, 0, &reaction) && is_untouched(&reaction, sizeof reaction));
    EXPECT(trade_set_input(world, 0, 0, 0) == TRADE_NO_INPUT);
    EXPECT(trade_signal(world, 0, 0) == TRADE_NO_SIGNAL);
    EXPECT(trade_at_rest(world));
    EXPECT(trade_turn(world, 0, buffer, sizeof buffer, &written) == TRADE_NONE);
    EXPECT(written == 77);
    EXPECT(trade_turns(world, 0, 9, &taken, buffer, sizeof buffer, &written) == TRADE_NONE);
    EXPECT(taken == 0 && written == 77 && is_untouched(buffer, sizeof buffer));
    taken = 77;
    EXPECT(trade_run(world, 9, &leaf, &taken, buffer, sizeof buffer, &written) == TRADE_IDLE);
    EXPECT(taken == 0 && written == 0 && leaf == 5 && is_untouched(buffer, sizeof buffer));
    trade_drop(world);
    EXPECT(world->at == NULL);
}

/* Numbers of leaves, nodes, inputs and signals that there are not. */
static void use_out_of_range(trade_world *world) {
    static const uint32_t numbers[] = {2, 3, 128, 129, 65536, INT32_MAX, UINT32_MAX - 1, UINT32_MAX};
    for (size_t at = 0; at < sizeof numbers / sizeof *numbers; at++) {
        uint32_t leaf = numbers[at], node = leaf == 2 ? 4 : leaf, taken = 77;
        uint8_t buffer[8];
        size_t written = 77;
        trade_account account = untouched_account();
        trade_budget budget;
        trade_reaction reaction;
        memset(&budget, UNTOUCHED, sizeof budget);
        memset(&reaction, UNTOUCHED, sizeof reaction);
        memset(buffer, UNTOUCHED, sizeof buffer);
        EXPECT(trade_node(world, leaf) == TRADE_NONE);
        EXPECT(!trade_label(world, node, buffer, sizeof buffer, &written));
        EXPECT(!trade_read_account(world, node, &account) && is_untouched(&account.phase, sizeof account.phase));
        EXPECT(!trade_read_budget(world, leaf, &budget) && is_untouched(&budget, sizeof budget));
        EXPECT(trade_set_input(world, leaf, 0, 0) == TRADE_NO_INPUT);
        EXPECT(trade_set_input(world, 0, leaf, 0) == TRADE_NO_INPUT);
        EXPECT(!trade_read_reaction(world, leaf, 0, &reaction) && !trade_read_reaction(world, 0, leaf, &reaction));
        EXPECT(is_untouched(&reaction, sizeof reaction));
        EXPECT(trade_signal(world, leaf, 0) == TRADE_NO_SIGNAL && trade_signal(world, 0, leaf) == TRADE_NO_SIGNAL);
        EXPECT(trade_turn(world, leaf, buffer, sizeof buffer, &written) == TRADE_NONE);
        EXPECT(trade_turns(world, leaf, 9, &taken, buffer, sizeof buffer, &written) == TRADE_NONE && taken == 0);
        EXPECT(written == 77 && is_untouched(buffer, sizeof buffer));
    }
    /* No leaf of this system has a signal. */
    EXPECT(trade_signal(world, 0, 0) == TRADE_NO_SIGNAL && trade_signal(world, 1, 0) == TRADE_NO_SIGNAL);
    EXPECT(trade_leaf(world, (const uint8_t *)"nobody", 6) == TRADE_NONE);
    EXPECT(trade_leaf(world, (const uint8_t *)"cl", 2) == TRADE_NONE);
    EXPECT(trade_leaf(world, (const uint8_t *)"", 0) == TRADE_NONE);
}

/* Labels and lines in buffers of each size: what fits, and the length that is needed. */
static void use_small_buffers(trade_world *world, size_t length) {
    static const char label[] = "init -> cli";
    for (size_t room = 0; room < 16; room++) {
        uint8_t buffer[16];
        size_t written = 77, fits = room < strlen(label) ? room : strlen(label);
        memset(buffer, UNTOUCHED, sizeof buffer);
        EXPECT(trade_label(world, 2, buffer, room, &written) && written == strlen(label));
        EXPECT(memcmp(buffer, label, fits) == 0 && is_untouched(buffer + fits, sizeof buffer - fits));
    }
    /* `cli` says 42 in its third turn after the reply to its call. */
    for (size_t room = 0; room < 4; room++) {
        uint8_t line[4];
        size_t written = 77;
        uint32_t taken = 0, srv = 0, cli = 1;
        trade_world other = TRADE_EMPTY;
        memset(line, UNTOUCHED, sizeof line);
        EXPECT(trade_load(text, length, &other) == TRADE_LOADED);
        EXPECT(trade_turns(&other, srv, 9, &taken, line, room, &written) == TRADE_QUIET && taken == 1 && written == 0);
        EXPECT(trade_turns(&other, cli, 9, &taken, line, room, &written) == TRADE_QUIET && taken == 1);
        EXPECT(trade_turns(&other, cli, 9, &taken, line, room, &written) == TRADE_IDLE && taken == 0 && written == 0);
        EXPECT(trade_turns(&other, srv, 9, &taken, line, room, &written) == TRADE_QUIET && taken == 2);
        EXPECT(trade_turns(&other, cli, 9, &taken, line, room, &written) == TRADE_QUIET && taken == 2);
        EXPECT(trade_turns(&other, srv, 9, &taken, line, room, &written) == TRADE_QUIET && taken == 4);
        EXPECT(trade_turns(&other, cli, 0, &taken, line, room, &written) == TRADE_IDLE && taken == 0);
        EXPECT(trade_turns(&other, cli, 9, &taken, line, room, &written) == TRADE_LINE && taken == 1 && written == 2);
        EXPECT(memcmp(line, "42", room < 2 ? room : 2) == 0 && is_untouched(line + (room < 2 ? room : 2), 2));
        EXPECT(trade_turns(&other, cli, 9, &taken, line, room, &written) == TRADE_QUIET && taken == 1 && written == 0);
        EXPECT(trade_turns(&other, srv, 9, &taken, line, room, &written) == TRADE_QUIET && taken == 2);
        EXPECT(trade_turns(&other, cli, 9, &taken, line, room, &written) == TRADE_FINISHED && taken == 1);
        EXPECT(trade_turn(&other, cli, line, room, &written) == TRADE_IDLE && written == 0);
        trade_drop(&other);
    }
    /* The same line by turns of all leaves. */
    for (size_t room = 0; room < 4; room++) {
        uint8_t line[4];
        size_t written = 77, fits = room < 2 ? room : 2;
        uint32_t taken = 0, leaf = TRADE_NONE;
        trade_world other = TRADE_EMPTY;
        memset(line, UNTOUCHED, sizeof line);
        EXPECT(trade_load(text, length, &other) == TRADE_LOADED);
        EXPECT(trade_run(&other, 0, &leaf, &taken, line, room, &written) == TRADE_IDLE && taken == 0 && written == 0 && leaf == TRADE_NONE);
        EXPECT(!trade_at_rest(&other) && is_untouched(line, sizeof line));
        /* From the first leaf on, since there is none of this number. */
        EXPECT(trade_run(&other, 1, &leaf, &taken, line, room, &written) == TRADE_QUIET && taken == 1 && written == 0 && leaf == 0);
        EXPECT(trade_run(&other, 99, &leaf, &taken, line, room, &written) == TRADE_LINE && taken == 10 && written == 2 && leaf == 1);
        EXPECT(memcmp(line, "42", fits) == 0 && is_untouched(line + fits, sizeof line - fits));
        EXPECT(trade_run(&other, 99, &leaf, &taken, line, room, &written) == TRADE_FINISHED && taken == 4 && written == 0 && leaf == 1);
        EXPECT(trade_at_rest(&other));
        leaf = 0;
        EXPECT(trade_run(&other, 99, &leaf, &taken, line, room, &written) == TRADE_IDLE && taken == 0 && written == 0 && leaf == 0);
        trade_drop(&other);
    }
}

/* How many turns all leaves take until all is at rest. */
static uint32_t run_to_rest(trade_world *world) {
    uint8_t line[64];
    size_t written;
    uint32_t leaf = 0, sum = 0;
    for (uint32_t taken = 1; taken > 0; sum += taken) (void)trade_run(world, 9, &leaf, &taken, line, sizeof line, &written);
    return sum;
}

static uint64_t budget_of(trade_world *world, uint32_t leaf) {
    trade_account account;
    EXPECT(trade_read_account(world, trade_node(world, leaf), &account) && account.steps <= account.budget);
    return account.budget;
}

/* Signals that there are, and those that there are not: of `window` none, of `uart_drv` and `timer_drv` one, of `eth_drv` two. */
static void use_signals(trade_world *world) {
    static const uint32_t window = 0, uart = 1, eth = 2, counts[] = {0, 1, 2, 1};
    static const uint32_t numbers[] = {0, 1, 2, 3, 4, 256, 65536, INT32_MAX, UINT32_MAX - 1, UINT32_MAX};
    trade_reaction reaction;
    trade_account account;
    uint8_t line[64];
    size_t written;
    uint32_t leaf = 0, taken;
    EXPECT(trade_leaves(world) == 4 && !trade_at_rest(world));
    /* One that is submitted in `main` is taken behind it. */
    EXPECT(trade_signal(world, uart, 0) == TRADE_SUBMITTED && budget_of(world, uart) == 2);
    EXPECT(run_to_rest(world) == 17 + 58 && budget_of(world, uart) == 2 + 5 && trade_at_rest(world));
    /* A signal that a leaf does not have changes nothing, whatever its number. */
    for (uint32_t of = 0; of < 4; of++)
        for (size_t at = 0; at < sizeof numbers / sizeof *numbers; at++) {
            bool is_there = numbers[at] < counts[of];
            memset(&reaction, UNTOUCHED, sizeof reaction);
            EXPECT(trade_read_reaction(world, of, numbers[at], &reaction) == is_there);
            EXPECT(is_untouched(&reaction, sizeof reaction) == !is_there);
            if (!is_there) EXPECT(trade_signal(world, of, numbers[at]) == TRADE_NO_SIGNAL && trade_at_rest(world));
        }
    EXPECT(run_to_rest(world) == 0 && trade_turn(world, window, line, sizeof line, &written) == TRADE_IDLE);
    /* One that is submitted again before it is taken counts once, and the budget grows when it is taken. */
    EXPECT(trade_read_reaction(world, eth, 1, &reaction) && reaction.steps == 11 && reaction.all == 11);
    EXPECT(trade_read_reaction(world, eth, 0, &reaction) && reaction.steps == 5 && reaction.all == 58);
    EXPECT(budget_of(world, eth) == 3);
    EXPECT(trade_signal(world, eth, 0) == TRADE_SUBMITTED && trade_signal(world, eth, 0) == TRADE_SUBMITTED && !trade_at_rest(world));
    EXPECT(budget_of(world, eth) == 3 && trade_turn(world, eth, line, sizeof line, &written) == TRADE_QUIET && budget_of(world, eth) == 3 + 5);
    /* Once more, now that it was taken. */
    EXPECT(trade_signal(world, eth, 0) == TRADE_SUBMITTED && run_to_rest(world) == 57 + 58 && budget_of(world, eth) == 3 + 10);
    EXPECT(trade_read_account(world, trade_node(world, eth), &account) && account.phase == TRADE_SERVING && account.steps == 3 + 10);
    /* The least number goes first. Turns begin with the leaf that is given, and a run that is cut goes on there. */
    EXPECT(trade_signal(world, eth, 1) == TRADE_SUBMITTED && trade_signal(world, eth, 0) == TRADE_SUBMITTED && trade_signal(world, uart, 0) == TRADE_SUBMITTED);
    leaf = eth;
    EXPECT(trade_run(world, 3, &leaf, &taken, line, sizeof line, &written) == TRADE_QUIET && taken == 3 && leaf == eth);
    EXPECT(trade_run(world, 99, &leaf, &taken, line, sizeof line, &written) == TRADE_LINE && leaf == eth && taken == 53 + 3 + 1 && line[0] == '0');
    EXPECT(trade_run(world, 99, &leaf, &taken, line, sizeof line, &written) == TRADE_LINE && leaf == eth && taken == 1 + 10 && line[0] == '1');
    EXPECT(trade_run(world, 99, &leaf, &taken, line, sizeof line, &written) == TRADE_LINE && leaf == uart);
    EXPECT(run_to_rest(world) == 1 && trade_at_rest(world));
}

int main(int argc, char **argv) {
    if (argc != 4) return 2;
    trade_world world = TRADE_EMPTY;
    use_empty(&world);
    size_t length = read_file(argv[1]), written = 77;
    uint8_t line[64];
    EXPECT(trade_load(text, length, &world) == TRADE_LOADED && world.at != NULL);
    EXPECT(trade_fault(text, length, line, sizeof line, &written) == TRADE_LOADED && written == 0);
    EXPECT(trade_nodes(&world) == 3 && trade_leaves(&world) == 2);
    EXPECT(trade_leaf(&world, (const uint8_t *)"cli", 3) == 1 && trade_node(&world, 1) == 2);
    trade_budget budget;
    EXPECT(trade_read_budget(&world, 0, &budget) && budget.own == 0 && budget.own_caps == 0 && budget.steps == 9);
    EXPECT(trade_read_budget(&world, 1, &budget) && budget.own == 8192 && budget.steps == 6);
    use_out_of_range(&world);
    use_small_buffers(&world, length);
    /* Nothing of that was a turn. */
    trade_account account;
    EXPECT(trade_read_account(&world, 2, &account) && account.steps == 0 && account.phase == TRADE_RUNNING && account.quota == 16384);
    EXPECT(trade_read_account(&world, 0, &account) && account.phase == TRADE_NONE && account.quota == 49152 && account.budget == 0);
    /* Another load frees the first, whatever comes of it. */
    EXPECT(trade_load(text, length, &world) == TRADE_LOADED);
    EXPECT(trade_load(text, 0, &world) == TRADE_REFUSED && world.at == NULL);
    length = read_file(argv[2]);
    EXPECT(trade_load(text, length, &world) == TRADE_LOADED);
    use_signals(&world);
    length = read_file(argv[3]);
    EXPECT(trade_load(text, length, &world) == TRADE_REFUSED && world.at == NULL);
    use_empty(&world);
    size_t whole = 0;
    EXPECT(trade_fault(text, length, line, sizeof line, &whole) == TRADE_REFUSED && whole > 4 && whole <= sizeof line);
    for (size_t room = 0; room < whole; room++) {
        uint8_t front[64];
        memset(front, UNTOUCHED, sizeof front);
        EXPECT(trade_fault(text, length, front, room, &written) == TRADE_REFUSED && written == whole);
        EXPECT(memcmp(front, line, room) == 0 && is_untouched(front + room, sizeof front - room));
    }
    return failed;
}
