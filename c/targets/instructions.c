/* Prints how many instructions a round of each main call takes, by the emulator's count (`-icount shift=0`): without those of the
 * loop around it. Under Linux nothing counts: `instructions KIND ROUNDS` makes rounds of a kind, 0 being an empty one. */
#include "net_bound.h"
#include "count.h"
#include "programs/byte_ring.h"
#include <stdio.h>
#include <stdlib.h>

enum { ROUNDS = 1000, CAPACITY = 64, RUNS = 4, SLOTS = 4 };

static uint8_t storage[CAPACITY], bytes[CAPACITY];
static struct net_base_run runs[RUNS];
static volatile unsigned status;
static struct net_base_packet_slot slots[SLOTS];
static struct net_bound_ring ring;
static struct byte_ring byte_ring;
static struct net_bound_packets packets;
static struct net_bound_finite_receiver receiver;
static struct net_bound_sending_end sender;
/* What the peer announces. */
static struct net_base_announcement announced = {0, 0, CAPACITY};
static struct net_bound_fragments fragments;

static void nothing(void) {}

static void one(void) {
    status = (unsigned)net_bound_ring_unallocated(&ring, 0, 1).from;
    status = net_bound_ring_enqueue(&ring, 1);
    status = (unsigned)net_bound_ring_allocated(&ring, 0, 1).from;
    status = net_bound_ring_dequeue(&ring, 1);
}

static void slices(void) {
    net_bound_ring_enqueue_slice(&ring, bytes, 16);
    net_bound_ring_dequeue_slice(&ring, bytes, 16);
}

static void byte(void) {
    byte_ring_put(&byte_ring, bytes[0]);
    byte_ring_take(&byte_ring, bytes);
}

static void packet(void) {
    struct net_base_packet_place place;
    struct net_base_first_packet first;
    net_bound_packets_enqueue(&packets, 16, &place);
    net_bound_packets_dequeue(&packets, &first);
}

static void segment(void) {
    struct net_base_kept_counts counts;
    status = net_bound_finite_receiver_segment(
        &receiver, receiver.head.receiver.count_read, bytes, 32, false, &counts);
    net_bound_finite_receiver_read(&receiver, bytes, 32);
}

static void send(void) {
    net_bound_sending_end_write(&sender, bytes, 32);
    announced.ack = net_bound_sending_end_next_segment(&sender, UINT64_MAX, 0).end;
    net_bound_sending_end_bytes(&sender, announced.ack - 32, announced.ack);
    status = net_bound_sending_end_acknowledged(&sender, &announced, NULL, 0, true, 0).status;
}

static void fragment(void) {
    size_t size;
    net_bound_fragments_init(&fragments, storage, CAPACITY, runs, RUNS, 0);
    status = net_bound_fragments_add(&fragments, 16, bytes, 16);
    status = net_bound_fragments_add(&fragments, 0, bytes, 16);
    status = net_bound_fragments_set_total_size(&fragments, 32);
    net_bound_fragments_complete(&fragments, &size);
}

static unsigned taken(void (*round)(void)) {
    unsigned begin = counter();
    for (volatile int i = 0; i < ROUNDS; i++) round();
    return since(begin) / ROUNDS;
}

int main(int count, char **words) {
    static const struct {
        const char *name;
        void (*round)(void);
    } kinds[] = {
        {"ring: where one element is, in and out", one},
        {"ring: 16 bytes in and out", slices},
        {"byte_ring.h: a byte in and out", byte},
        {"packets: one in and out", packet},
        {"receiver: a segment of 32 bytes and a read", segment},
        {"sending end: 32 bytes written, sent and acknowledged", send},
        {"fragments: two of 16 bytes, the size, the packet", fragment},
    };
    static const struct net_base_timeout_bounds bounds = {0, 0, 0, 0};
    net_bound_ring_init(&ring, storage, CAPACITY);
    net_bound_packets_init(&packets, storage, CAPACITY, slots, SLOTS);
    net_bound_finite_receiver_init(&receiver, storage, CAPACITY, runs, RUNS, 0);
    net_bound_sending_end_init(&sender, storage, CAPACITY, 0, 0, &bounds);
    net_bound_sending_end_open(&sender, &announced, 32, true, 0);
    if (count == 3) {
        int kind = atoi(words[1]);
        for (volatile int i = atoi(words[2]); i > 0; i--) (kind == 0 ? nothing : kinds[kind - 1].round)();
        return 0;
    }
    counter();
    unsigned loop = taken(nothing);
    for (unsigned i = 0; i < sizeof kinds / sizeof kinds[0]; i++)
        printf("instructions: %u %s\n", taken(kinds[i].round) - loop, kinds[i].name);
    return 0;
}
