/* What a Cortex-M reads at reset: where the stack begins, and where to begin. A fault ends the
 * program with an error, by semihosting.
 */
extern void _start(void);
extern char __StackTop[];

__attribute__((weak)) void on_tick(void) {}

static void fault(void) {
    register unsigned call __asm__("r0") = 0x18;   /* to end the program */
    register unsigned why __asm__("r1") = 0x20023; /* by an error */
    __asm__ volatile("bkpt 0xab" ::"r"(call), "r"(why));
    for (;;) {
    }
}

/* A unit for floating-point numbers is off at reset. A word that isn't aligned is a fault, if it is
 * to be trapped. */
static void reset(void) {
#ifdef TRAPS
    *(volatile unsigned *)0xe000ed14 |= 1u << 3;
#endif
#ifdef __ARM_FP
    *(volatile unsigned *)0xe000ed88 |= 0xfu << 20;
#endif
    _start();
}

__attribute__((section(".vectors"), used)) static const void *const vectors[16] = {
    __StackTop, reset, fault, fault, fault, fault, fault, fault,
    0, 0, 0, fault, fault, 0, fault, on_tick,
};

#ifdef TRAPS
/* newlib's copy by words that aren't aligned. */
void *memmove(void *to, const void *from, unsigned size) {
    volatile unsigned char *at = to;
    const unsigned char *source = from;
    for (unsigned i = 0; i < size; i++) {
        unsigned k = (const unsigned char *)to < source ? i : size - 1 - i;
        at[k] = source[k];
    }
    return to;
}

void *memcpy(void *to, const void *from, unsigned size) {
    return memmove(to, from, size);
}

void __aeabi_memmove(void *to, const void *from, unsigned size) {
    memmove(to, from, size);
}

void __aeabi_memcpy(void *to, const void *from, unsigned size) {
    memmove(to, from, size);
}

/* clang calls these, which newlib has beside the one above. */
void __aeabi_memcpy4(void *to, const void *from, unsigned size) __attribute__((alias("__aeabi_memcpy")));
void __aeabi_memcpy8(void *to, const void *from, unsigned size) __attribute__((alias("__aeabi_memcpy")));
#endif

/* newlib's start calls these. */
void _init(void) {}
void _fini(void) {}
