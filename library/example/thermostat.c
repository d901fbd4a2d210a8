/* thermostat SCENARIO: a control loop over a system of components, examples/thermostat.toml, which runs for ever.

   Each line of standard input is a tick of a timer, with a measurement in tenths of a degree. The measurement becomes the input of the driver `sensor_drv`,
   and the tick a signal to `controller`. Then the components get turns until all are at rest. Each power that `heater_drv` says is printed. A scenario in which
   a tick may take more steps than there is time for is refused. After a bad line there is an error on standard error, and the loop goes on. */
#include "trade.h"

#include <errno.h>
#include <inttypes.h>
#include <stdio.h>
#include <stdlib.h>
#include <string.h>

/* MOST_STEPS: how many steps there is time for between two ticks. TURNS: after so many the host would look after its other work. */
enum { MOST_TEXT = 1 << 20, MOST_STEPS = 1000, TURNS = 100, TICK = 0 };

static uint32_t leaf_named(trade_world *world, const char *name) {
    uint32_t leaf = trade_leaf(world, (const uint8_t *)name, strlen(name));
    if (leaf != TRADE_NONE) return leaf;
    fprintf(stderr, "the scenario has no component %s\n", name);
    exit(1);
}

/* Loads the scenario in a file, or prints why not. */
static bool load(const char *name, trade_world *world) {
    static uint8_t text[MOST_TEXT + 1];
    FILE *file = fopen(name, "rb");
    if (!file) return fprintf(stderr, "%s: %s\n", name, strerror(errno)), false;
    size_t length = fread(text, 1, sizeof text, file);
    fclose(file);
    uint32_t status = trade_load(text, length, world);
    if (status == TRADE_REFUSED) {
        uint8_t line[256];
        size_t written;
        status = trade_fault(text, length, line, sizeof line, &written);
        if (status == TRADE_REFUSED)
            fprintf(stderr, "%s: %.*s\n", name, (int)(written < sizeof line ? written : sizeof line), (const char *)line);
    }
    if (status == TRADE_MEMORY) fprintf(stderr, "%s: no memory\n", name);
    return status == TRADE_LOADED;
}

/* Whether a tick takes no more steps than there is time for, whatever the order of the turns. Prints why not. */
static bool is_in_time(trade_world *world, uint32_t controller) {
    trade_reaction tick;
    if (!trade_read_reaction(world, controller, TICK, &tick)) return fprintf(stderr, "the controller takes no ticks\n"), false;
    if (tick.all <= MOST_STEPS) return true;
    fprintf(stderr, "a tick may take %" PRIu64 " steps, and there is time for %d\n", tick.all, MOST_STEPS);
    return false;
}

/* Gives all leaves turns until none can take one any more. Prints each power that the heater says. */
static void run_to_rest(trade_world *world, uint32_t heater) {
    uint32_t leaf = 0, taken;
    do {
        uint8_t line[64];
        size_t written;
        uint32_t event = trade_run(world, TURNS, &leaf, &taken, line, sizeof line, &written);
        if (event == TRADE_LINE && leaf == heater) printf("heater %.*s\n", (int)written, (const char *)line);
    } while (taken > 0);
    fflush(stdout);
}

/* Reads a line without its line feed: its length, of which no more than `room` bytes are kept. False at the end of the input. */
static bool read_line(char *line, size_t room, size_t *length) {
    int c = getchar();
    for (*length = 0; c != EOF && c != '\n'; c = getchar(), ++*length)
        if (*length < room) line[*length] = (char)c;
    return c == '\n' || *length > 0;
}

/* A number of one to nine digits. False if the line is anything else. */
static bool read_number(const char *line, size_t length, uint32_t *number) {
    if (length > 0 && length <= 10 && line[length - 1] == '\r') length--;
    if (length < 1 || length > 9) return false;
    *number = 0;
    for (size_t at = 0; at < length; at++) {
        if (line[at] < '0' || line[at] > '9') return false;
        *number = *number * 10 + (uint32_t)(line[at] - '0');
    }
    return true;
}

int main(int argc, char **argv) {
    trade_world world = TRADE_EMPTY;
    if (argc != 2) return fprintf(stderr, "usage: thermostat SCENARIO\n"), 2;
    if (!load(argv[1], &world)) return 1;
    uint32_t sensor = leaf_named(&world, "sensor_drv"), heater = leaf_named(&world, "heater_drv"), controller = leaf_named(&world, "controller");
    if (!is_in_time(&world, controller)) return trade_drop(&world), 1;
    run_to_rest(&world, heater);
    char read[16];
    size_t length;
    for (unsigned number = 1; read_line(read, sizeof read, &length); number++) {
        uint32_t tenths;
        if (!read_number(read, length, &tenths)) {
            fprintf(stderr, "line %u: no number of tenths of a degree\n", number);
        } else if (trade_set_input(&world, sensor, 0, tenths) != TRADE_SET) {
            fprintf(stderr, "line %u: the sensor can't measure %" PRIu32 "\n", number, tenths);
        } else {
            trade_signal(&world, controller, TICK);
            run_to_rest(&world, heater);
        }
    }
    trade_drop(&world);
    return 0;
}
