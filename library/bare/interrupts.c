/* A timer beside the library, and faults that print where. A handler notes, and the loop in main.c submits: no handler calls the library.

   It is compiled with -mgeneral-regs-only: handlers don't save SSE registers, so they must not use any. The library's functions use the red zone, 128 bytes
   below their stack pointer. So every gate has a stack of its own (IST 1): else the processor would push its frame over their data. Handlers don't nest. */
#include "bare.h"

struct frame { uint64_t rip, cs, flags, rsp, ss; };
struct __attribute__((packed)) gate { uint16_t low, selector; uint8_t ist, type; uint16_t middle; uint32_t high, zero; };
struct __attribute__((packed)) task_state { uint32_t zero; uint64_t rsp[3], zero2, ist[7], zero3; uint16_t zero4, io; };
struct __attribute__((packed)) table_pointer { uint16_t limit; const void *base; };

/* The frequency of the programmable interval timer, in hertz. */
enum { TIMER_HERTZ = 1193182 };
/* The command and data ports of both interrupt controllers, and of the timer. */
enum { FIRST = 0x20, SECOND = 0xa0, TIMER = 0x40 };
/* The vector of the timer's interrupt. */
enum { TICK = 32 };

extern uint64_t descriptors[];
static struct gate gates[256];
static struct task_state state = { .io = sizeof state };
static _Alignas(16) uint8_t interrupt_stack[4096];
static volatile uint64_t noted;

static __attribute__((interrupt)) void on_tick(struct frame *frame) {
    (void)frame;
    noted++;
    out8(FIRST, 0x20); /* the end of the interrupt */
}

static __attribute__((noreturn)) void report(uint64_t fault, const struct frame *frame) {
    put("fault %u at %x, stack %x\n", fault, frame->rip, frame->rsp);
    power_off();
}

static __attribute__((interrupt)) void on_invalid_opcode(struct frame *frame) { report(6, frame); }
static __attribute__((interrupt)) void on_double_fault(struct frame *frame, uint64_t code) { (void)code; report(8, frame); }
static __attribute__((interrupt)) void on_protection_fault(struct frame *frame, uint64_t code) { (void)code; report(13, frame); }
static __attribute__((interrupt)) void on_page_fault(struct frame *frame, uint64_t code) { (void)code; report(14, frame); }

static void set_gate(unsigned vector, uint64_t at) {
    gates[vector] = (struct gate){ (uint16_t)at, 0x08, 1, 0x8e, (uint16_t)(at >> 16), (uint32_t)(at >> 32), 0 };
}

static void describe_task_state(void) {
    uint64_t base = (uint64_t)&state;
    state.ist[0] = (uint64_t)(interrupt_stack + sizeof interrupt_stack);
    descriptors[3] = (sizeof state - 1) | (base & 0xffffff) << 16 | (uint64_t)0x89 << 40 | (base >> 24 & 0xff) << 56;
    descriptors[4] = base >> 32;
    __asm__ volatile("ltr %w0" : : "r"(0x18));
}

/* Both interrupt controllers: vectors from 32 on, and all but the timer masked. */
static void begin_controllers(void) {
    out8(FIRST, 0x11);
    out8(SECOND, 0x11);
    out8(FIRST + 1, TICK);
    out8(SECOND + 1, TICK + 8);
    out8(FIRST + 1, 4);
    out8(SECOND + 1, 2);
    out8(FIRST + 1, 1);
    out8(SECOND + 1, 1);
    out8(FIRST + 1, 0xfe);
    out8(SECOND + 1, 0xff);
}

void interrupts_begin(unsigned hertz) {
    struct table_pointer pointer = { sizeof gates - 1, gates };
    unsigned divisor = TIMER_HERTZ / hertz;
    describe_task_state();
    set_gate(6, (uint64_t)on_invalid_opcode);
    set_gate(8, (uint64_t)on_double_fault);
    set_gate(13, (uint64_t)on_protection_fault);
    set_gate(14, (uint64_t)on_page_fault);
    set_gate(TICK, (uint64_t)on_tick);
    __asm__ volatile("lidt %0" : : "m"(pointer));
    begin_controllers();
    out8(TIMER + 3, 0x34); /* channel 0, rate generator */
    out8(TIMER, (uint8_t)divisor);
    out8(TIMER, (uint8_t)(divisor >> 8));
    __asm__ volatile("sti");
}

uint64_t take_ticks(void) {
    uint64_t taken;
    __asm__ volatile("cli" : : : "memory");
    taken = noted;
    noted = 0;
    __asm__ volatile("sti" : : : "memory");
    return taken;
}

/* No tick gets lost between the look and the sleep: `sti` lets an interrupt in only after the instruction that follows it. */
void sleep_until_interrupt(void) {
    __asm__ volatile("cli" : : : "memory");
    if (noted == 0) __asm__ volatile("sti; hlt" : : : "memory");
    else __asm__ volatile("sti" : : : "memory");
}
