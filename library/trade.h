/* trade.h: systems of components, for programs in C11 and C++. docs/LIBRARY.md explains it.

   Rules for the caller, beyond the types. Pointers are not null, point to memory of the stated size, and do not overlap. A text may have length 0, and so may
   a buffer. A world stays on the thread that loaded it. Call no function in a handler of the operating system's signals, nor in the child of a fork of a
   process with threads. malloc, realloc and free come from one allocator. Only trade_load, trade_fault and trade_drop call them. */
#ifndef TRADE_H
#define TRADE_H

#include <stdbool.h>
#include <stddef.h>
#include <stdint.h>

#ifdef __cplusplus
extern "C" {
#endif

/* A world, or none. Set it to TRADE_EMPTY before the first use. Only the functions below change it. Use a copy only in place of the original. */
typedef struct trade_world { void *at; } trade_world;
#define TRADE_EMPTY { NULL }

#define TRADE_NONE UINT32_MAX

/* What trade_load returns: the exit statuses of the program `trade`. */
enum { TRADE_LOADED = 0, TRADE_REFUSED = 1, TRADE_MEMORY = 3 };

/* What a turn did. */
enum { TRADE_IDLE = 0, TRADE_QUIET = 1, TRADE_LINE = 2, TRADE_FINISHED = 3 };

/* The phase of a leaf. */
enum { TRADE_PENDING = 0, TRADE_RUNNING = 1, TRADE_BLOCKED = 2, TRADE_SERVING = 3, TRADE_HANDLING = 4, TRADE_EXITED = 5 };

/* What trade_set_input returns. */
enum { TRADE_SET = 0, TRADE_NO_INPUT = 1, TRADE_TOO_LARGE = 2 };

/* What trade_signal returns. */
enum { TRADE_SUBMITTED = 0, TRADE_NO_SIGNAL = 1 };

/* The account of a node, in bytes and capabilities. The phase of an init is TRADE_NONE; of an init all but quota and caps is 0. Without capabilities caps and
   taken are 0. */
typedef struct trade_account {
    uint64_t quota, used, caps, taken, steps, budget;
    uint32_t phase;
} trade_account;

/* The verified bounds of a leaf: bytes and capabilities of its own, and steps from the start, without signals. The budget of an account grows with the signals
   that are taken. */
typedef struct trade_budget { uint64_t own, own_caps, steps; } trade_budget;

/* The verified bounds of a signal: how many steps it takes at most each time that it is taken, of its leaf and of all leaves together. */
typedef struct trade_reaction { uint64_t steps, all; } trade_reaction;

/* Loads a scenario. Frees what `world` held before. `world` is empty afterwards unless the result is TRADE_LOADED. */
uint32_t trade_load(const uint8_t *text, size_t length, trade_world *world);

/* Writes the line that `trade check` prints for a text that is refused, without `trade: ` and line feed: as much of it as fits into `room` bytes. `written`
   gets its whole length. Returns TRADE_REFUSED; TRADE_LOADED for a text that is accepted, and TRADE_MEMORY if memory runs out, both with `written` 0. */
uint32_t trade_fault(const uint8_t *text, size_t length, uint8_t *line, size_t room, size_t *written);

/* The number of nodes, and of leaves; 0 if `world` is empty. Nodes are numbered in preorder from 0, and leaves likewise. */
uint32_t trade_nodes(trade_world *world);
uint32_t trade_leaves(trade_world *world);

/* The number of the leaf of this name, or TRADE_NONE. */
uint32_t trade_leaf(trade_world *world, const uint8_t *name, size_t length);

/* The node of a leaf, or TRADE_NONE. */
uint32_t trade_node(trade_world *world, uint32_t leaf);

/* Writes the label of a node, as trade_fault writes its line. False, with nothing written, if there is no such node. */
bool trade_label(trade_world *world, uint32_t node, uint8_t *label, size_t room, size_t *written);

/* Reads an account. False, with nothing written, if there is no such node. */
bool trade_read_account(trade_world *world, uint32_t node, trade_account *account);

/* Reads the bounds of a leaf. False, with nothing written, if there is no such leaf. */
bool trade_read_budget(trade_world *world, uint32_t leaf, trade_budget *budget);

/* Sets an input of a leaf. TRADE_NO_INPUT if there is no such leaf or input, TRADE_TOO_LARGE if the number is above its greatest value; then nothing changes. */
uint32_t trade_set_input(trade_world *world, uint32_t leaf, uint32_t input, uint32_t number);

/* Reads the bounds of a signal. False, with nothing written, if there is no such leaf or signal. */
bool trade_read_reaction(trade_world *world, uint32_t leaf, uint32_t signal, trade_reaction *reaction);

/* Submits a signal to a leaf. It counts once until it is taken. TRADE_NO_SIGNAL if there is no such leaf or signal; then nothing changes. */
uint32_t trade_signal(trade_world *world, uint32_t leaf, uint32_t signal);

/* Whether no leaf can take a turn. True if `world` is empty. */
bool trade_at_rest(trade_world *world);

/* One turn of a leaf. The text of its line (without label, at most 64 bytes) goes to `line`, as trade_fault writes its line; `written` is 0 if there is none.
   TRADE_NONE, with nothing changed, if there is no such leaf. */
uint32_t trade_turn(trade_world *world, uint32_t leaf, uint8_t *line, size_t room, size_t *written);

/* Turns of a leaf, at most `most`: until one writes a line or finishes, or the leaf can't take one. `taken` gets how many were taken, each of which was a step.
   The result, `line` and `written` are those of the last, as of trade_turn; TRADE_IDLE, with `written` 0, if none was taken. TRADE_NONE, with `taken` 0 and
   nothing else changed, if there is no such leaf. */
uint32_t trade_turns(trade_world *world, uint32_t leaf, uint32_t most, uint32_t *taken, uint8_t *line, size_t room, size_t *written);

/* Turns of all leaves, at most `most`, round by round in preorder from leaf `*leaf` on (from leaf 0 if there is no such leaf), each as long as it can take one:
   until one writes a line or finishes, or none can take one. `*leaf` gets the leaf of the last turn, and stays as it was if none was taken. The rest is as of
   trade_turns; TRADE_IDLE, with `taken` 0, if the world is at rest, `most` is 0 or `world` is empty. */
uint32_t trade_run(trade_world *world, uint32_t most, uint32_t *leaf, uint32_t *taken, uint8_t *line, size_t room, size_t *written);

/* Frees what `world` holds and leaves it empty. */
void trade_drop(trade_world *world);

#ifdef __cplusplus
}
#endif
#endif
