/* The tasks of docs/C.md: a stream, a queue of bytes, and a queue of packets. */
#include "net_bound.h"
#include <stdio.h>
#include <string.h>

/* Two segments arrive in the wrong order, and are read as one stream. */
static int stream(void) {
    static struct net_bound_finite_receiver receiver;
    static uint8_t storage[64];         /* room for the stream's bytes */
    static struct net_base_run runs[4]; /* at most four ranges may wait */
    const uint8_t later[] = "def", first[] = "abc"; /* at positions 3 and 0 */
    struct net_base_kept_counts counts;
    uint8_t out[64];
    if (!net_bound_finite_receiver_init(&receiver, storage, 64, runs, 4, 0) ||
        net_bound_finite_receiver_segment(&receiver, 3, later, 3, false, &counts) ||
        net_bound_finite_receiver_segment(&receiver, 0, first, 3, false, &counts))
        return 1; /* refused */
    size_t count = net_bound_finite_receiver_read(&receiver, out, 64);
    printf("read %.*s\n", (int)count, (const char *)out);
    return 0;
}

/* A queue of eight bytes: what doesn't fit stays with the caller. */
static int bytes(void) {
    static struct net_bound_ring ring;
    static uint8_t storage[8];
    uint8_t out[5];
    net_bound_ring_init(&ring, storage, 8);
    size_t taken = net_bound_ring_enqueue_slice(&ring, (const uint8_t *)"hello, world", 12);
    size_t count = net_bound_ring_dequeue_slice(&ring, out, 5);
    printf("took %zu, read %.*s\n", taken, (int)count, (const char *)out);
    return 0;
}

/* A queue of packets. The program keeps their headers, here a port, by the index of the slot. */
static int packets(void) {
    static struct net_bound_packets queue;
    static uint8_t storage[64];
    static struct net_base_packet_slot slots[2];
    static uint16_t ports[2];
    const char *const payloads[] = {"query", "get", "mail"};
    net_bound_packets_init(&queue, storage, 64, slots, 2);
    for (unsigned k = 0; k < 3; k++) {
        struct net_base_packet_place place;
        if (!net_bound_packets_enqueue(&queue, strlen(payloads[k]), &place)) {
            printf("no room for %s\n", payloads[k]);
            continue;
        }
        memcpy(storage + place.from, payloads[k], strlen(payloads[k]));
        ports[place.slot] = (uint16_t)(53 + k);
    }
    struct net_base_first_packet first;
    while (net_bound_packets_dequeue(&queue, &first))
        printf("port %d: %.*s\n", ports[first.slot], (int)first.size, (const char *)storage + first.from);
    return 0;
}

int main(void) {
    return stream() || bytes() || packets();
}
