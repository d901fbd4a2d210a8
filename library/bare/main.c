/* A thermostat without an operating system: examples/thermostat.toml, which runs for ever.

   The timer's interrupt is noted, and the loop submits it as a signal to `controller`. A line on the serial port is a measurement in tenths of a degree, the
   input of `sensor_drv`; `status` prints figures. The loop gives turns until all components are at rest, and prints each power that `heater_drv` says, if it is
   another than before. Then the processor sleeps until the next interrupt. A scenario in which a tick may take more steps than there is time for is refused. */
#include "bare.h"
#include "trade.h"

extern const uint8_t scenario[], scenario_end[];

/* MOST_STEPS: how many steps there is time for between two ticks. TURNS: after so many the loop would look after its other work. */
enum { MOST_STEPS = 1000, TURNS = 100, SIGNAL = 0, LINE = 64 };

static trade_world world = TRADE_EMPTY;
static uint32_t sensor, heater, controller;
static uint64_t ticks, reactions;
static size_t load_stack, load_calls;

/* The library is compiled for SSE4.2 and POPCNT, and doesn't ask. */
static void check_processor(void) {
    const uint32_t wanted = 1u << 19 | 1u << 20 | 1u << 23; /* SSE4.1, SSE4.2, POPCNT */
    uint32_t a = 1, b, c = 0, d;
    __asm__("cpuid" : "+a"(a), "=b"(b), "+c"(c), "=d"(d));
    if ((c & wanted) != wanted) stop("this processor has no SSE4.1, SSE4.2 or POPCNT");
}

static size_t length_of(const char *word) {
    size_t length = 0;
    while (word[length]) length++;
    return length;
}

static uint32_t leaf_named(const char *name) {
    uint32_t leaf = trade_leaf(&world, (const uint8_t *)name, length_of(name));
    if (leaf == TRADE_NONE) {
        put("the scenario has no component %s\n", name);
        power_off();
    }
    return leaf;
}

/* Loads the scenario, or prints why not. From then on nothing is allocated. */
static void load(void) {
    size_t length = (size_t)(scenario_end - scenario), written;
    uint8_t line[256];
    uint32_t status = trade_load(scenario, length, &world);
    if (status == TRADE_REFUSED) status = trade_fault(scenario, length, line, sizeof line, &written);
    if (status == TRADE_REFUSED) {
        put("%t\n", written < sizeof line ? written : sizeof line, line);
        power_off();
    }
    if (status == TRADE_MEMORY) {
        put("the arena of %u bytes is too small\n", (uint64_t)arena_size);
        power_off();
    }
    arena_close();
    load_calls = arena_calls;
    load_stack = stack_used();
    stack_paint();
}

/* Whether a tick takes no more steps than there is time for, whatever the order of the turns. */
static void check_time(void) {
    trade_reaction tick;
    if (!trade_read_reaction(&world, controller, SIGNAL, &tick)) stop("the controller takes no ticks");
    put("a tick takes at most %u steps\n", tick.all);
    if (tick.all > MOST_STEPS) stop("a tick may take more steps than there is time for");
}

/* Prints a power, unless it is the one before. */
static void show_power(const uint8_t *line, size_t length) {
    static uint8_t last[LINE];
    static size_t last_length;
    bool is_same = length == last_length;
    for (size_t at = 0; is_same && at < length; at++) is_same = line[at] == last[at];
    if (is_same) return;
    for (size_t at = 0; at < length; at++) last[at] = line[at];
    last_length = length;
    put("heater %t\n", length, line);
}

/* Gives all components turns until none can take one any more. */
static void run_to_rest(void) {
    uint32_t leaf = 0, taken;
    do {
        uint8_t line[LINE];
        size_t written;
        if (trade_run(&world, TURNS, &leaf, &taken, line, sizeof line, &written) == TRADE_LINE && leaf == heater) show_power(line, written);
    } while (taken > 0);
}

/* Ticks that came while the components were at work count as one. */
static void react(void) {
    uint64_t came = take_ticks();
    if (came == 0) return;
    ticks += came;
    reactions++;
    trade_signal(&world, controller, SIGNAL);
    run_to_rest();
}

static void show_status(void) {
    put("ticks %u, reactions %u\n", ticks, reactions);
    put("heap %u bytes, at most %u, calls %u, after the load %u\n", (uint64_t)arena_used, (uint64_t)arena_highest, (uint64_t)load_calls,
        (uint64_t)(arena_calls - load_calls));
    put("stack %u bytes, while loading %u\n", (uint64_t)stack_used(), (uint64_t)load_stack);
    for (uint32_t node = 0; node < trade_nodes(&world); node++) {
        uint8_t label[96];
        size_t written;
        trade_account account;
        if (trade_label(&world, node, label, sizeof label, &written) && trade_read_account(&world, node, &account))
            put("%t quota %u used %u steps %u of %u\n", written, label, account.quota, account.used, account.steps, account.budget);
    }
}

/* Whether a line is this word. */
static bool is_word(const char *line, size_t length, const char *word) {
    if (length != length_of(word)) return false;
    for (size_t at = 0; at < length; at++)
        if (line[at] != word[at]) return false;
    return true;
}

/* A number of one to nine digits. False if the line is anything else. */
static bool read_number(const char *line, size_t length, uint32_t *number) {
    if (length < 1 || length > 9) return false;
    *number = 0;
    for (size_t at = 0; at < length; at++) {
        if (line[at] < '0' || line[at] > '9') return false;
        *number = *number * 10 + (uint32_t)(line[at] - '0');
    }
    return true;
}

static void take_line(const char *line, size_t length) {
    uint32_t tenths;
    if (is_word(line, length, "status")) show_status();
    else if (!read_number(line, length, &tenths)) put("no number of tenths of a degree\n");
    else if (trade_set_input(&world, sensor, 0, tenths) != TRADE_SET) put("the sensor can't measure %u\n", (uint64_t)tenths);
}

/* Takes what has come in on the serial line, up to the end of a line. A line that is too long for any answer is no number. */
static void read_serial(void) {
    static char line[16];
    static size_t length;
    for (int byte = serial_read(); byte >= 0; byte = serial_read()) {
        if (byte != '\n' && byte != '\r') {
            if (length < sizeof line) line[length++] = (char)byte;
        } else if (length > 0) {
            take_line(line, length);
            length = 0;
        }
    }
}

void main(void) {
    stack_paint();
    serial_begin();
    check_processor();
    load();
    sensor = leaf_named("sensor_drv");
    heater = leaf_named("heater_drv");
    controller = leaf_named("controller");
    check_time();
    run_to_rest();
    interrupts_begin(HERTZ);
    put("loaded, %u ticks a second\n", (uint64_t)HERTZ);
    for (;;) {
        read_serial();
        react();
        sleep_until_interrupt();
    }
}
