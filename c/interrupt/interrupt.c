/* A timer's interrupt feeds a ring of bytes, and the main loop reads it. Nothing is masked. A million bytes come as they
 * were sent.
 */
#include "machine.h"
#include "../programs/byte_ring.h"

enum { BURST = 250, TOTAL = 1000000 };

static struct byte_ring ring;

/* Of the interrupt alone. */
static uint64_t sent;
static _Atomic unsigned ticks;

static uint8_t byte_at(uint64_t position) {
    return (uint8_t)(position * 7 + position / 256);
}

void on_tick(void) {
    /* What there is no room for is sent by a later tick. */
    for (unsigned i = 0; i < BURST && byte_ring_put(&ring, byte_at(sent)); i++) sent++;
    atomic_store_explicit(&ticks, ticks + 1, memory_order_relaxed);
}

static void print_number(uint64_t number) {
    char text[21];
    unsigned at = sizeof text - 1;
    text[at] = '\0';
    do text[--at] = (char)('0' + number % 10);
    while ((number /= 10) != 0);
    print(text + at);
}

int run(void) {
    uint64_t read = 0, wrong = 0;
    uint8_t byte;
    start_timer();
    while (read < TOTAL && wrong == 0) {
        if (byte_ring_take(&ring, &byte)) wrong += byte != byte_at(read++);
    }
    print("interrupt: ");
    print_number(read);
    print(" bytes, ");
    print_number(ticks);
    print(" interrupts, ");
    print_number(wrong);
    print(" wrong\n");
    return wrong != 0;
}
