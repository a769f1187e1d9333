/* SPDX-License-Identifier: 0BSD
 * A ring of bytes that two sides share without a lock: threads, or an interrupt and what it interrupts. Any program may
 * have a copy. For other elements, or for more writers or readers, take a ring of net_bound.h, and guard it with a lock.
 *
 * With an RTOS nothing else is needed between one interrupt and one task. To let the task sleep, notify it after the put:
 * in FreeRTOS by vTaskNotifyGiveFromISR, for which the task waits by ulTaskNotifyTake. We haven't tried this. If two
 * tasks write, they need a mutex between them. With DMA into a buffer of its own, let the interrupts of half, full and
 * idle put what is new into the ring; they need one priority, since one side alone may write.
 */
#ifndef BYTE_RING_H
#define BYTE_RING_H
#include <stdbool.h>
#include <stddef.h>
#include <stdint.h>
#ifdef __cplusplus
#include <atomic>
using std::memory_order_acquire;
using std::memory_order_relaxed;
using std::memory_order_release;
typedef std::atomic<size_t> byte_ring_count;
#define BYTE_RING_ASSERT static_assert
#else
#include <stdatomic.h>
typedef _Atomic size_t byte_ring_count;
#define BYTE_RING_ASSERT _Static_assert
#endif

/* One for the whole program: define another by the compiler's flags, as the struct depends on it. */
#ifndef BYTE_RING_SIZE
#define BYTE_RING_SIZE 256
#endif
BYTE_RING_ASSERT(BYTE_RING_SIZE > 0 && (BYTE_RING_SIZE & (BYTE_RING_SIZE - 1)) == 0, "a power of two: counts wrap");

/* A ring of zeros is empty. The counts wrap freely: it has `in - out` bytes. */
struct byte_ring {
    byte_ring_count in, out;
    uint8_t bytes[BYTE_RING_SIZE];
};

/* Puts a byte into the ring, unless it is full. One side alone calls this. */
static inline bool byte_ring_put(struct byte_ring *ring, uint8_t byte) {
    size_t in = atomic_load_explicit(&ring->in, memory_order_relaxed);
    size_t out = atomic_load_explicit(&ring->out, memory_order_acquire);
    if (in - out == BYTE_RING_SIZE) return false;
    ring->bytes[in % BYTE_RING_SIZE] = byte;
    atomic_store_explicit(&ring->in, in + 1, memory_order_release);
    return true;
}

/* Takes a byte out of the ring, unless it is empty. The other side alone calls this. */
static inline bool byte_ring_take(struct byte_ring *ring, uint8_t *byte) {
    size_t out = atomic_load_explicit(&ring->out, memory_order_relaxed);
    size_t in = atomic_load_explicit(&ring->in, memory_order_acquire);
    if (in == out) return false;
    *byte = ring->bytes[out % BYTE_RING_SIZE];
    atomic_store_explicit(&ring->out, out + 1, memory_order_release);
    return true;
}
#endif
