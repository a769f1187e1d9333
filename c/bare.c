/* A program with no C library and no heap: its own _start, and the five functions that the library
 * may want. It runs on a stack of 4 KB, exits with the number of the first step that fails, or 0,
 * and prints how much stack it took.
 */
#include "net_base.h"
#include <stddef.h>

enum { STACK_SIZE = 4096, PAINT = 0xa5, WRITE = 1, EXIT = 60 };

/* Keeps a compiler from making a loop a call of the function that it is in. */
#define STAYS_A_LOOP() __asm__ volatile("")

void *memcpy(void *restrict to, const void *restrict from, uint64_t size) {
    unsigned char *target = to;
    const unsigned char *source = from;
    for (uint64_t i = 0; i < size; i++) {
        target[i] = source[i];
        STAYS_A_LOOP();
    }
    return to;
}

void *memmove(void *to, const void *from, uint64_t size) {
    unsigned char *target = to;
    const unsigned char *source = from;
    if (target <= source) return memcpy(to, from, size);
    while (size-- > 0) {
        target[size] = source[size];
        STAYS_A_LOOP();
    }
    return to;
}

void *memset(void *to, int byte, uint64_t size) {
    unsigned char *target = to;
    for (uint64_t i = 0; i < size; i++) {
        target[i] = (unsigned char)byte;
        STAYS_A_LOOP();
    }
    return to;
}

int memcmp(const void *one, const void *other, uint64_t size) {
    const unsigned char *left = one, *right = other;
    for (uint64_t i = 0; i < size; i++) {
        if (left[i] != right[i]) return left[i] < right[i] ? -1 : 1;
        STAYS_A_LOOP();
    }
    return 0;
}

int bcmp(const void *one, const void *other, uint64_t size) {
    return memcmp(one, other, size);
}

static bool are_equal(const uint8_t *bytes, const char *text, uint64_t size) {
    return memcmp(bytes, text, size) == 0;
}

/* Bytes go through a ring of eight, which wraps. */
static int run_ring(void) {
    static uint8_t storage[8];
    uint8_t into[8];
    struct net_base_ring ring = {0, 0};
    if (net_base_ring_enqueue_slice(&ring, storage, 8, (const uint8_t *)"abcdef", 6) != 6) return 1;
    if (net_base_ring_dequeue_slice(&ring, storage, 8, into, 4) != 4) return 2;
    if (net_base_ring_enqueue_slice(&ring, storage, 8, (const uint8_t *)"ghijkl", 6) != 6) return 3;
    if (net_base_ring_dequeue_slice(&ring, storage, 8, into, 8) != 8) return 4;
    if (!are_equal(into, "efghijkl", 8)) return 5;
    struct net_base_ring nonsense = {3, 9};
    if (net_base_ring_enqueue_slice(&nonsense, storage, 8, into, 1) != NET_BASE_NONE) return 6;
    return 0;
}

/* Segments of a stream arrive in any order, and its bytes are read in order. */
static int run_receiver(void) {
    static uint8_t storage[8];
    static struct net_base_run runs[4];
    struct net_base_finite_receiver receiver;
    if (!net_base_finite_receiver_init(&receiver, 100)) return 12;
    struct net_base_kept_counts counts;
    uint8_t into[8];
    const uint8_t *bytes = (const uint8_t *)"abcdefgh";
    if (net_base_finite_receiver_segment(&receiver, storage, 8, runs, 4, 103, bytes + 3, 5, false, &counts)
        != NET_BASE_SEGMENT_DONE)
        return 7;
    if (net_base_finite_receiver_segment(&receiver, storage, 8, runs, 4, 100, bytes, 4, false, &counts)
        != NET_BASE_SEGMENT_DONE)
        return 8;
    if (counts.kept != 4 || counts.queued != 8) return 9;
    if (net_base_finite_receiver_read(&receiver, storage, 8, into, 8) != 8) return 10;
    if (!are_equal(into, "abcdefgh", 8)) return 11;
    return 0;
}

/* Returns the number of the first step that fails, or 0. */
static int run(void) {
    int failed = run_ring();
    return failed != 0 ? failed : run_receiver();
}

static long call_system(long number, long one, const void *two, uint64_t three) {
    long result;
    __asm__ volatile("syscall"
                     : "=a"(result)
                     : "a"(number), "D"(one), "S"(two), "d"(three)
                     : "rcx", "r11", "memory");
    return result;
}

__attribute__((used, aligned(16))) static unsigned char stack[STACK_SIZE];

/* Paints the stack below what is in use. */
static void paint_stack(void) {
    unsigned char *in_use = (unsigned char *)__builtin_frame_address(0) - 256;
    for (unsigned char *at = stack; at < in_use; at++) *at = PAINT;
}

static uint64_t stack_used(void) {
    uint64_t unused = 0;
    while (stack[unused] == PAINT) unused++;
    return STACK_SIZE - unused;
}

static void print(const char *text, uint64_t size) {
    call_system(WRITE, 1, text, size);
}

static void print_number(uint64_t number) {
    char digits[20];
    uint64_t at = sizeof digits;
    do digits[--at] = (char)('0' + number % 10);
    while (number /= 10);
    print(digits + at, sizeof digits - at);
}

__attribute__((noreturn, used)) static void start(void) {
    paint_stack();
    int failed = run();
    uint64_t used = stack_used();
    print("bare: ", 6);
    print_number((uint64_t)failed);
    print(" failed, ", 9);
    print_number(used);
    print(" bytes of stack\n", 16);
    call_system(EXIT, failed, NULL, 0);
    __builtin_unreachable();
}

__asm__(".globl _start\n"
        "_start:\n"
        "    xor %ebp, %ebp\n"
        "    lea stack+4096(%rip), %rsp\n"
        "    call start\n"
        "    hlt\n");
