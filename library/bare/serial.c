/* The first serial line, a 16550 that is polled, and a small printf. */
#include "bare.h"

#include <stdarg.h>

/* The port, and the bits of its line status: a byte came in, and one can go out. */
enum { COM1 = 0x3f8, READY = 1, EMPTY = 0x20 };

void serial_begin(void) {
    out8(COM1 + 1, 0);    /* no interrupts */
    out8(COM1 + 3, 0x80); /* divisor 1: 115200 baud */
    out8(COM1 + 0, 1);
    out8(COM1 + 1, 0);
    out8(COM1 + 3, 3);    /* 8 bits, no parity, 1 stop bit */
    /* The FIFO stays off, as turning it on drops what QEMU has sent already. A real line needs it: out8(COM1 + 2, 7). */
    out8(COM1 + 4, 3);
}

int serial_read(void) { return in8(COM1 + 5) & READY ? in8(COM1) : -1; }

static void put_byte(char byte) {
    while (!(in8(COM1 + 5) & EMPTY)) {}
    out8(COM1, (uint8_t)byte);
}

static void put_bytes(const char *bytes, size_t count) {
    for (size_t at = 0; at < count; at++) put_byte(bytes[at]);
}

static void put_number(uint64_t number, unsigned base) {
    char digits[20];
    int count = 0;
    do digits[count++] = "0123456789abcdef"[number % base];
    while (number /= base);
    while (count) put_byte(digits[--count]);
}

void put(const char *format, ...) {
    va_list values;
    va_start(values, format);
    for (; *format; format++) {
        if (*format == '\n') put_byte('\r');
        if (*format != '%') {
            put_byte(*format);
            continue;
        }
        switch (*++format) {
            case 'u': put_number(va_arg(values, uint64_t), 10); break;
            case 'x': put_number(va_arg(values, uint64_t), 16); break;
            case 's': {
                const char *text = va_arg(values, const char *);
                size_t count = 0;
                while (text[count]) count++;
                put_bytes(text, count);
                break;
            }
            case 't': {
                size_t count = va_arg(values, size_t);
                put_bytes(va_arg(values, const char *), count);
                break;
            }
        }
    }
    va_end(values);
}

void power_off(void) {
    __asm__ volatile("outw %0, %1" : : "a"((uint16_t)0x2000), "Nd"((uint16_t)0x604)); /* ACPI of QEMU's machines pc and q35 */
    for (;;) __asm__ volatile("cli; hlt");
}

void stop(const char *why) {
    put("%s\n", why);
    power_off();
}
