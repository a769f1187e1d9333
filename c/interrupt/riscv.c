/* The example's machine: a RISC-V with the timer of QEMU's `virt`, which interrupts it. It prints by semihosting, as that on a
 * Cortex-M does.
 */
#include "machine.h"
#include <stdint.h>
#include <stdio.h>
#include <stdlib.h>

enum { CYCLES = 5000, TIMER = 1 << 7, ENABLED = 1 << 3 };

static volatile uint64_t *const next = (uint64_t *)0x2004000, *const now = (uint64_t *)0x200bff8;

__attribute__((interrupt, aligned(4))) static void on_trap(void) {
    intptr_t cause;
    __asm__ volatile("csrr %0, mcause" : "=r"(cause));
    if (cause >= 0) exit(1); /* a fault */
    *next = *now + CYCLES;
    on_tick();
}

void start_timer(void) {
    *next = *now + CYCLES;
    __asm__ volatile("csrw mtvec, %0" ::"r"(on_trap));
    __asm__ volatile("csrs mie, %0" ::"r"(TIMER));
    __asm__ volatile("csrs mstatus, %0" ::"r"(ENABLED) : "memory");
}

void print(const char *text) {
    fputs(text, stdout);
    fflush(stdout);
}

int main(void) {
    exit(run());
}
