/* What the files of the image share. */
#ifndef BARE_H
#define BARE_H

#include <stddef.h>
#include <stdint.h>

/* Ports of the processor. */
static inline void out8(uint16_t port, uint8_t value) { __asm__ volatile("outb %0, %1" : : "a"(value), "Nd"(port)); }

static inline uint8_t in8(uint16_t port) {
    uint8_t value;
    __asm__ volatile("inb %1, %0" : "=a"(value) : "Nd"(port));
    return value;
}

/* serial.c: the first serial line. `put` knows %s (a string), %u (a uint64_t), %x (a uint64_t) and %t (a size_t, and so many bytes). */
void serial_begin(void);
int serial_read(void); /* a byte, or -1 */
void put(const char *format, ...);

/* Prints a line, and ends the image: it asks QEMU to end, and halts a processor of its own. */
void stop(const char *why) __attribute__((noreturn));
void power_off(void) __attribute__((noreturn));

/* interrupts.c: a timer that ticks so often a second, each tick once noted until `take_tick` takes it. */
void interrupts_begin(unsigned hertz);
uint64_t take_ticks(void); /* how many came since the last call */

/* Sleeps until the next interrupt, unless a tick is noted. */
void sleep_until_interrupt(void);

/* memory.c: the arena, and how deep the stack went. */
extern const size_t arena_size;
extern size_t arena_used, arena_highest, arena_calls; /* bytes in use, the highest byte that was in use, calls */
void arena_close(void); /* from here on each call of the allocator ends the image */
void stack_paint(void);
size_t stack_used(void);

#endif
