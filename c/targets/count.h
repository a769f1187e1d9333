/* Counts instructions, where an emulator does (`-icount shift=0`): begin with `counter()`, and from two of them `since`. Under
 * Linux nothing counts. */
#ifndef COUNT_H
#define COUNT_H
#ifdef __riscv
static unsigned counter(void) {
    unsigned count;
    __asm__ volatile(".option push\n.option arch, +zicsr\ncsrr %0, minstret\n.option pop" : "=r"(count));
    return count;
}
static unsigned since(unsigned begin) {
    return counter() - begin;
}
#elif defined __linux__
static unsigned counter(void) {
    return 0;
}
static unsigned since(unsigned begin) {
    return counter() - begin;
}
#else
/* SysTick counts 24 bits down at 25 MHz, and an instruction takes a nanosecond. */
static unsigned counter(void) {
    volatile unsigned *systick = (volatile unsigned *)0xe000e010;
    if (systick[0] == 0) {
        systick[1] = 0xffffff;
        systick[2] = 0;
        systick[0] = 5;
        while (systick[2] == 0) {
        }
    }
    return 0xffffff - systick[2];
}
static unsigned since(unsigned begin) {
    return ((counter() - begin) & 0xffffff) * 40;
}
#endif
#endif
