/* run_by_library SCENARIO TURNS: does what `trade run SCENARIO TURNS` does, by the calls of library/trade.h. Both files are there.

   Standard output, standard error and the exit status are those of the program. It reads the list of turns itself, as docs/SCENARIOS.md has it.
   It calls trade_turns, and for `rest` trade_run. With ONE_BY_ONE it calls trade_turn for each turn instead, and trade_run for one turn at a time. With COUNTED
   it counts the calls of the allocator (link with -Wl,--wrap=malloc,--wrap=realloc,--wrap=free). COUNTS=1 in the environment prints on standard error how many
   calls loading made, how many came later up to the drop, and how many blocks are left after it; whether the handle was empty after the load, and is after the
   drop. FAIL=n refuses the n-th call. */
#include "counted_calls.h"
#include "trade.h"

#include <inttypes.h>
#include <stdio.h>
#include <stdlib.h>
#include <string.h>

enum { MOST_TEXT = 18 << 20, MOST_LINE = 4096, MOST_TURNS = 1000000, MOST_TURNS_TEXT = 16 << 20, SHORTEST_ITEM = 4 };

static uint8_t scenario[MOST_TEXT], turns[MOST_TEXT];

/* An item of a list of turns: so many turns of a leaf, the value of an input, a signal, or turns until all is at rest. */
typedef enum kind { TURNS, SETTING, SIGNAL, REST } kind;
typedef struct item {
    kind kind;
    uint32_t leaf, which, number;
} item;

static item items[MOST_TURNS_TEXT / SHORTEST_ITEM + 1];

static size_t read_file(const char *name, uint8_t *text) {
    FILE *file = fopen(name, "rb");
    if (!file) exit(4);
    size_t length = fread(text, 1, MOST_TEXT, file);
    fclose(file);
    return length;
}

static int refuse(const char *fault, size_t line) {
    fprintf(stderr, "trade: %s line %zu\n", fault, line);
    return TRADE_REFUSED;
}

/* A number of so many digits at most: the place behind it, or 0 where there is none. */
static size_t read_number(const uint8_t *text, size_t length, size_t most, uint64_t *number) {
    size_t at = 0;
    *number = 0;
    while (at < length && text[at] >= '0' && text[at] <= '9') *number = *number * 10 + (text[at++] - '0');
    return at == length && at >= 1 && at <= most ? at : 0;
}

static bool is_name(const uint8_t *text, size_t length) {
    for (size_t at = 0; at < length; at++) {
        uint8_t c = text[at];
        bool is_letter = (c >= 'a' && c <= 'z') || (c >= 'A' && c <= 'Z');
        if (!is_letter && !(c >= '0' && c <= '9') && c != '-' && c != '_') return false;
    }
    return length >= 1 && length <= 16;
}

/* Whether there is a leaf of the name that stands there. The fault's text, or null. */
static const char *read_leaf(trade_world *world, const uint8_t *name, size_t length, item *read) {
    if (!is_name(name, length)) return "U1 BadLine";
    read->leaf = trade_leaf(world, name, length);
    return read->leaf == TRADE_NONE ? "U2 NoSuchComponent" : NULL;
}

/* NAME!I. The library judges the signal, of which the bounds can be read if it is there. */
static const char *read_signal(trade_world *world, const uint8_t *line, size_t name, item *read) {
    trade_reaction reaction;
    uint8_t digit = line[name + 1];
    if (digit < '0' || digit > '2') return "U1 BadLine";
    *read = (item){.kind = SIGNAL, .which = digit - '0'};
    const char *fault = read_leaf(world, line, name, read);
    if (fault) return fault;
    return trade_read_reaction(world, read->leaf, read->which, &reaction) ? NULL : "U6 NoSignal";
}

/* NAME.I = N, of which the digits begin at `from`. The library judges it: the input is set at once, and back to 0 before the run, with which a leaf starts. */
static const char *read_setting(trade_world *world, const uint8_t *line, size_t name, size_t from, size_t length, item *read) {
    uint64_t number;
    uint8_t digit = line[name + 1];
    if (digit < '0' || digit > '7' || !read_number(line + from, length - from, 10, &number) || number > UINT32_MAX) return "U1 BadLine";
    *read = (item){.kind = SETTING, .which = digit - '0', .number = (uint32_t)number};
    const char *fault = read_leaf(world, line, name, read);
    if (fault) return fault;
    uint32_t set = trade_set_input(world, read->leaf, read->which, read->number);
    if (set == TRADE_NO_INPUT) return "U4 NoInput";
    if (set == TRADE_TOO_LARGE) return "U5 InputTooLarge";
    return trade_set_input(world, read->leaf, read->which, 0) == TRADE_SET ? NULL : "unset";
}

/* NAME N, of which the digits begin at `from`. */
static const char *read_count(trade_world *world, const uint8_t *line, size_t name, size_t from, size_t length, item *read) {
    uint64_t number;
    if (from == length || line[from] == '0' || !read_number(line + from, length - from, 7, &number)) return "U1 BadLine";
    *read = (item){.kind = TURNS, .number = (uint32_t)number};
    return read_leaf(world, line, name, read);
}

/* Reads a line that says something. The fault's text, or null. */
static const char *read_item(trade_world *world, int version, const uint8_t *line, size_t length, item *read) {
    if (version >= 4 && length == 4 && !memcmp(line, "rest", 4)) return *read = (item){.kind = REST}, NULL;
    if (version >= 4 && length >= 3 && line[length - 2] == '!') return read_signal(world, line, length - 2, read);
    const uint8_t *blank = memchr(line, ' ', length);
    if (!blank) return "U1 BadLine";
    size_t name = (size_t)(blank - line), rest = length - name - 1;
    bool is_setting = version >= 3 && rest >= 2 && blank[1] == '=' && blank[2] == ' ' && name >= 3 && line[name - 2] == '.';
    return is_setting ? read_setting(world, line, name - 2, name + 3, length, read) : read_count(world, line, name, name + 1, length, read);
}

/* Reads the list of turns. The number of items, or -1 after the fault's line. */
static long read_turns(trade_world *world, int version, size_t length) {
    long count = 0;
    uint64_t sum = 0;
    size_t number = 0;
    if (length > MOST_TURNS_TEXT) return refuse("U3 TooMany", 0), -1;
    for (size_t at = 0; at < length; number++) {
        const uint8_t *line = turns + at, *end = memchr(line, '\n', length - at);
        size_t whole = end ? (size_t)(end - line) : length - at, of_line = whole;
        at += whole + (end != NULL);
        if (of_line && line[of_line - 1] == '\r' && end) of_line--;
        if (of_line == 0 || line[0] == '#') continue;
        item *read = &items[count++];
        const char *fault = read_item(world, version, line, of_line, read);
        if (fault) return refuse(fault, number + 1), -1;
        if (read->kind == TURNS) sum += read->number;
        if (sum > MOST_TURNS) return refuse("U3 TooMany", number + 1), -1;
    }
    return count;
}

static void put_label(trade_world *world, uint32_t node) {
    uint8_t label[MOST_LINE];
    size_t written;
    if (trade_label(world, node, label, sizeof label, &written)) fwrite(label, 1, written, stdout);
}

static void put_line(trade_world *world, uint32_t leaf, const uint8_t *line, size_t written) {
    putchar('[');
    put_label(world, trade_node(world, leaf));
    fputs("] ", stdout);
    fwrite(line, 1, written, stdout);
    putchar('\n');
}

static void take_turns(trade_world *world, uint32_t leaf, uint32_t count) {
    while (count > 0) {
        uint8_t line[64];
        size_t written;
#ifdef ONE_BY_ONE
        uint32_t event = trade_turn(world, leaf, line, sizeof line, &written), taken = 1;
#else
        uint32_t taken, event = trade_turns(world, leaf, count, &taken, line, sizeof line, &written);
        if (taken == 0) break;
#endif
        if (event == TRADE_LINE) put_line(world, leaf, line, written);
        if (event == TRADE_IDLE) break;
        count -= taken;
    }
}

/* Turns of all leaves from the first on, until all is at rest or so many were taken as a list may have. */
static void take_to_rest(trade_world *world) {
#ifdef ONE_BY_ONE
    enum { AT_ONCE = 1 };
#else
    enum { AT_ONCE = MOST_TURNS };
#endif
    uint32_t leaf = 0, taken;
    for (uint32_t left = MOST_TURNS; left > 0; left -= taken) {
        uint8_t line[64];
        size_t written;
        if (trade_run(world, left < AT_ONCE ? left : AT_ONCE, &leaf, &taken, line, sizeof line, &written) == TRADE_LINE) put_line(world, leaf, line, written);
        if (taken == 0) {
            if (!trade_at_rest(world)) exit(6);
            break;
        }
    }
}

static void put_accounts(trade_world *world, bool has_caps) {
    static const char *const phases[] = {"pending", "running", "blocked", "serving", "handling", "exited"};
    for (uint32_t node = 0; node < trade_nodes(world); node++) {
        trade_account account;
        if (!trade_read_account(world, node, &account)) exit(5);
        bool is_leaf = account.phase != TRADE_NONE;
        fputs("account ", stdout);
        put_label(world, node);
        printf(" quota %" PRIu64, account.quota);
        if (is_leaf) printf(" used %" PRIu64, account.used);
        if (has_caps) printf(" caps %" PRIu64, account.caps);
        if (has_caps && is_leaf) printf(" taken %" PRIu64, account.taken);
        if (is_leaf) printf(" steps %" PRIu64 "/%" PRIu64 " %s", account.steps, account.budget, phases[account.phase]);
        putchar('\n');
    }
}

/* The version of a scenario that was accepted, by its key. */
static int version_of(size_t length) {
    for (size_t at = 0; at + 7 < length; at++)
        if ((at == 0 || scenario[at - 1] == '\n') && !memcmp(scenario + at, "version", 7))
            for (at += 7; at < length && scenario[at] != '\n'; at++)
                if (scenario[at] >= '1' && scenario[at] <= '9') return scenario[at] - '0';
    return 1;
}

/* Loads the scenario. The exit status, after the fault's line where there is one. */
static int load(trade_world *world, size_t length) {
    uint32_t status = trade_load(scenario, length, world);
    if (status == TRADE_REFUSED) {
        uint8_t line[MOST_LINE];
        size_t written;
        status = trade_fault(scenario, length, line, sizeof line, &written);
        if (status == TRADE_REFUSED) fprintf(stderr, "trade: %.*s\n", (int)written, (const char *)line);
    }
    if (status == TRADE_MEMORY) fputs("trade: host memory refused\n", stderr);
    return (int)status;
}

/* Runs the turns. The exit status, after the fault's line where there is one. */
static int run(trade_world *world, size_t length, size_t of_turns) {
    int version = version_of(length);
    long count = read_turns(world, version, of_turns);
    for (long at = 0; at < count; at++) {
        const item *done = &items[at];
        switch (done->kind) {
        case TURNS: take_turns(world, done->leaf, done->number); break;
        case SETTING: trade_set_input(world, done->leaf, done->which, done->number); break;
        case SIGNAL: trade_signal(world, done->leaf, done->which); break;
        case REST: take_to_rest(world); break;
        }
    }
    if (count >= 0) put_accounts(world, version >= 2);
    return count < 0 ? TRADE_REFUSED : TRADE_LOADED;
}

int main(int argc, char **argv) {
    if (argc != 3) return 2;
    size_t length = read_file(argv[1], scenario), of_turns = read_file(argv[2], turns);
    /* (So that standard output takes no memory at its first write.) */
    static char buffer[1 << 16];
    setvbuf(stdout, buffer, _IOFBF, sizeof buffer);
    if (getenv("FAIL")) fail_at = atol(getenv("FAIL"));
    trade_world world = TRADE_EMPTY;
    calls = blocks = 0;
    int status = load(&world, length);
    long of_load = calls;
    fail_at = calls = 0;
    bool was_empty = world.at == NULL;
    if (status == TRADE_LOADED) status = run(&world, length, of_turns);
    long later = calls;
    trade_drop(&world);
    if (getenv("COUNTS")) fprintf(stderr, "load %ld later %ld left %ld empty %d %d\n", of_load, later, blocks, was_empty, world.at == NULL);
    return status;
}
