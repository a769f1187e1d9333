/* The example's machine: a PC without an operating system, which a loader by the Multiboot specification
 * starts, and whose interval timer interrupts it. It is compiled without a red zone, since an interrupt
 * writes below the stack pointer, and without SSE, since nothing saves its registers.
 */
#include "machine.h"
#include <stddef.h>
#include <stdint.h>

enum { HERTZ = 2000, VECTOR = 32, SELECTOR = 8, EXIT_PORT = 0xf4, TEXT_PORT = 0xe9 };

static void out(uint16_t port, uint8_t byte) {
    __asm__ volatile("outb %0, %1" ::"a"(byte), "Nd"(port));
}

/* What the library and the compiler want of a C library. */
void *memmove(void *to, const void *from, size_t size) {
    uint8_t *target = to;
    const uint8_t *source = from;
    for (size_t i = 0; i < size; i++) {
        size_t at = target <= source ? i : size - 1 - i;
        target[at] = source[at];
        __asm__ volatile(""); /* stays a loop */
    }
    return to;
}

void *memcpy(void *to, const void *from, size_t size) {
    return memmove(to, from, size);
}

void *memset(void *to, int byte, size_t size) {
    uint8_t *target = to;
    for (size_t i = 0; i < size; i++) {
        target[i] = (uint8_t)byte;
        __asm__ volatile("");
    }
    return to;
}

void print(const char *text) {
    while (*text != '\0') out(TEXT_PORT, (uint8_t)*text++);
}

/* Ends the emulator, with a status that isn't 0: 33 if all is right. */
static _Noreturn void finish(uint8_t code) {
    out(EXIT_PORT, code);
    for (;;) __asm__ volatile("cli; hlt");
}

struct frame;

__attribute__((interrupt)) static void timer(struct frame *frame) {
    (void)frame;
    on_tick();
    out(0x20, 0x20); /* the interrupt is served */
}

__attribute__((interrupt)) static void fault(struct frame *frame) {
    (void)frame;
    print("interrupt: a fault\n");
    finish(1);
}

struct gate {
    uint16_t low, selector, flags, middle;
    uint32_t high, unused;
};

static struct gate gates[VECTOR + 1];

static void set_gate(unsigned vector, void (*handler)(struct frame *)) {
    uint64_t at = (uint64_t)handler;
    gates[vector] = (struct gate){(uint16_t)at, SELECTOR, 0x8e00, (uint16_t)(at >> 16), (uint32_t)(at >> 32), 0};
}

void start_timer(void) {
    struct __attribute__((packed)) {
        uint16_t limit;
        uint64_t base;
    } table = {sizeof gates - 1, (uint64_t)gates};
    for (unsigned vector = 0; vector < VECTOR; vector++) set_gate(vector, fault);
    set_gate(VECTOR, timer);
    __asm__ volatile("lidt %0" ::"m"(table));
    /* The interrupt controllers: vectors from VECTOR on, all masked but the timer. */
    static const uint8_t words[][2] = {{0x20, 0x11}, {0xa0, 0x11}, {0x21, VECTOR}, {0xa1, VECTOR + 8}, {0x21, 4},
                                       {0xa1, 2},    {0x21, 1},    {0xa1, 1},      {0x21, 0xfe},       {0xa1, 0xff}};
    for (unsigned i = 0; i < sizeof words / sizeof words[0]; i++) out(words[i][0], words[i][1]);
    uint16_t divisor = 1193182 / HERTZ;
    out(0x43, 0x34);
    out(0x40, (uint8_t)divisor);
    out(0x40, (uint8_t)(divisor >> 8));
    __asm__ volatile("sti" ::: "memory");
}

/* start.S calls this, with 64 bits. */
_Noreturn void begin(void) {
    finish(run() == 0 ? 16 : 1);
}
