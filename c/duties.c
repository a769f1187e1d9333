/* What the library with the feature `check` tells of calls that break a duty, or are refused. */
#include "net_bound.h"
#include <setjmp.h>
#include <stdio.h>
#include <string.h>

static jmp_buf after;
static uint32_t told;
static char what[100];
static int failed;

void net_base_broken(uint32_t duty, const char *name, const char *argument) {
    told = duty;
    snprintf(what, sizeof what, "%s %s", name + strlen("net_base_0_"), argument);
    longjmp(after, 1);
}

/* Makes a call, which must be told of by a number and these words; none if the number is 9. */
#define TOLD(call, duty, words)                                                                 \
    do {                                                                                        \
        told = 9, what[0] = 0;                                                                  \
        if (!setjmp(after)) (void)!(call);                                                      \
        if (told != (duty) || strcmp(what, words) != 0) {                                       \
            printf("duties: %s: told of %u by \"%s\"\n", #call, (unsigned)told, what);          \
            failed = 1;                                                                         \
        }                                                                                       \
    } while (0)

int main(void) {
    static uint8_t storage[16], bytes[4];
    static uint64_t words[9];
    volatile size_t most = SIZE_MAX;
    const uint8_t *volatile none = NULL;
    static struct net_base_run runs[4];
    static struct net_base_packet_slot slots[4];
    struct net_base_packets packets = {0};
    struct net_bound_packets bound = {.slots = slots, .slots_length = 4};
    struct net_base_first_packet first;
    struct net_base_ring ring = {0, 0}, empty = {0, 0};
    struct net_base_fragments fragments = {0};
    struct net_base_kept_counts counts;
    struct net_base_finite_receiver receiver = {0};
    void *odd = (uint8_t *)words + 1;
    TOLD(net_base_ring_enqueue_slice(odd, storage, 16, bytes, 4), 1, "ring_enqueue_slice ring");
    TOLD(net_base_ring_enqueue_slice(&ring, storage, most, bytes, 4), 1, "ring_enqueue_slice storage");
    TOLD(net_base_ring_enqueue_slice(&ring, storage, 16, storage + 15, 1), 2, "ring_enqueue_slice storage");
    TOLD(net_base_ring_dequeue_slice(&ring, storage + 1, 4, storage, 2), 2, "ring_dequeue_slice storage");
    TOLD(net_base_ring_dequeue_slice(&ring, storage + 2, 4, storage, 2), 9, "");
    TOLD(net_base_finite_receiver_segment(&receiver, storage, 16, odd, 4, 0, bytes, 4, false, &counts), 1,
        "finite_receiver_segment runs");
    receiver.receiver.held.used = 3;
    TOLD(net_base_finite_receiver_segment(&receiver, storage, 16, runs, 4, 0, bytes, 4, false, &counts), 7,
        "finite_receiver_segment ");
    TOLD(net_base_finite_receiver_segment(NULL, storage, 16, runs, 4, 0, bytes, 4, false, &counts), 0,
        "finite_receiver_segment receiver");
    TOLD(net_base_ring_enqueue_slice(&ring, storage, 16, none, 4), 0, "ring_enqueue_slice data");
    TOLD(net_base_ring_enqueue(NULL, 16, 4), 0, "ring_enqueue ring");
    TOLD(net_bound_ring_enqueue_slice(NULL, bytes, 4), 0, "ring_enqueue_slice ring");
    TOLD(net_bound_packets_peek(&bound, NULL), 0, "packets_peek packets");
    TOLD(net_bound_packets_peek(&bound, &first), 9, "");
    TOLD(net_base_ring_enqueue(&ring, 16, 17), 9, "");
    TOLD(net_base_packets_dequeue(&packets, slots, 4, 16).size, 9, "");
    ring.length = 17;
    TOLD(net_base_ring_dequeue_slice(&ring, storage, 16, bytes, 4), 0, "ring_dequeue_slice ");
    TOLD(net_base_ring_allocated(&ring, 16, 0, 4).count, 0, "ring_allocated ");
    packets.bytes.length = 17;
    TOLD(net_base_packets_dequeue(&packets, slots, 4, 16).size, 0, "packets_dequeue ");
    ring.length = 0;
    fragments.present.used = 5;
    TOLD(net_base_fragments_set_total_size(&fragments, 16, runs, 4, 8), 7, "fragments_set_total_size ");
    TOLD(net_base_ring_enqueue_slice(&ring, storage, 16, bytes, 4), 9, "");
    TOLD(net_base_ring_enqueue_slice(&empty, (void *)1, 0, NULL, 0), 9, "");
    if (!failed) printf("duties: as it should\n");
    return failed;
}
