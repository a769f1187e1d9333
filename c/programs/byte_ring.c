/* Two threads and a ring of bytes between them, without a lock: byte_ring [BYTES] */
#include "byte_ring.h"
#include <pthread.h>
#include <sched.h>
#include <stdio.h>
#include <stdlib.h>

static struct byte_ring received; /* of zeros: it is empty */
static uint64_t total = 1000000;

/* The interrupt of a UART calls this. False: the ring is full, and the byte is lost. */
static bool on_byte(uint8_t byte) {
    return byte_ring_put(&received, byte);
}

/* The main loop, or a task, takes what there is, and returns how many bytes that is. */
static size_t take_all(uint8_t *into, size_t size) {
    size_t count = 0;
    while (count < size && byte_ring_take(&received, &into[count])) count++;
    return count;
}

static uint8_t byte_at(uint64_t position) {
    return (uint8_t)(position * 7 + position / 256);
}

static void *put_all(void *unused) {
    for (uint64_t sent = 0; sent < total;) {
        if (on_byte(byte_at(sent)))
            sent++;
        else
            sched_yield();
    }
    return unused;
}

int main(int count, char **words) {
    if (count > 1) total = strtoull(words[1], NULL, 10);
    pthread_t writer;
    if (pthread_create(&writer, NULL, put_all, NULL) != 0) return 2;
    uint64_t read = 0, wrong = 0;
    uint8_t into[64];
    while (read < total) {
        size_t taken = take_all(into, sizeof into);
        if (taken == 0) sched_yield();
        for (size_t k = 0; k < taken; k++) wrong += into[k] != byte_at(read++);
    }
    pthread_join(writer, NULL);
    wrong += take_all(into, sizeof into);
    printf("byte_ring: %llu bytes between two threads, %llu wrong\n", (unsigned long long)read,
        (unsigned long long)wrong);
    return wrong != 0;
}
