/* The example's machine: a Cortex-M, whose SysTick timer interrupts it. It prints by semihosting, which a
 * debugger or an emulator serves. ../targets/cortex_m.c has the table of vectors.
 */
#include "machine.h"
#include <stdint.h>
#include <stdio.h>
#include <stdlib.h>

enum { CYCLES = 12500 };

struct systick {
    volatile uint32_t control, reload, current;
};

void start_timer(void) {
    struct systick *timer = (struct systick *)0xe000e010;
    timer->reload = CYCLES;
    timer->current = 0;
    timer->control = 7; /* the processor's clock, interrupt, enabled */
}

void print(const char *text) {
    fputs(text, stdout);
    fflush(stdout);
}

int main(void) {
    exit(run());
}
