/* A program with the C library: texts go through a ring of bytes, packets through a queue, and
 * segments of a stream arrive at a receiver in any order. It prints hosted.stdout.
 */
#include "net_base.h"
#include <stdio.h>
#include <string.h>

enum { CAPACITY = 16, MOST_RUNS = 2, SLOTS = 4 };

/* Writes a text into a ring as far as there is room, and says how much was taken. */
static void enqueue(struct net_base_ring *ring, uint8_t *storage, const char *text) {
    size_t count = net_base_ring_enqueue_slice(ring, storage, CAPACITY, (const uint8_t *)text, strlen(text));
    printf("enqueued %u of %u\n", (unsigned)count, (unsigned)strlen(text));
}

/* Prints what is queued, up to `size` bytes. */
static void dequeue(struct net_base_ring *ring, const uint8_t *storage, size_t size) {
    uint8_t into[CAPACITY];
    size_t count = net_base_ring_dequeue_slice(ring, storage, CAPACITY, into, size);
    printf("dequeued \"%.*s\"\n", (int)count, (const char *)into);
}

static void use_ring(void) {
    uint8_t storage[CAPACITY];
    struct net_base_ring ring;
    net_base_ring_init(&ring);
    enqueue(&ring, storage, "a ring of bytes");
    dequeue(&ring, storage, 7);
    enqueue(&ring, storage, " that wraps");
    dequeue(&ring, storage, CAPACITY);
    struct net_base_ring nonsense = {3, CAPACITY + 1};
    uint8_t byte = 0;
    if (net_base_ring_enqueue_slice(&nonsense, storage, CAPACITY, &byte, 1) == NET_BASE_NONE) {
        printf("refused: no ring of %d has %d elements\n", CAPACITY, CAPACITY + 1);
    }
}

/* A queue of packets: slots with a header beside each, the port that a packet is for, and bytes. */
struct packet_queue {
    struct net_base_packets head;
    struct net_base_packet_slot slots[SLOTS];
    uint16_t ports[SLOTS];
    uint8_t bytes[CAPACITY];
};

/* Queues a text as a packet, and says where it is. */
static void enqueue_packet(struct packet_queue *queue, uint16_t port, const char *text) {
    size_t size = strlen(text);
    struct net_base_packet_place place =
        net_base_packets_enqueue(&queue->head, queue->slots, SLOTS, CAPACITY, size);
    if (place.slot == NET_BASE_NONE) {
        printf("no room for \"%s\"\n", text);
        return;
    }
    queue->ports[place.slot] = port;
    memcpy(&queue->bytes[place.from], text, (size_t)size);
    printf("\"%s\" is at %u, after a gap of %u\n", text, (unsigned)place.from, (unsigned)place.gap);
}

/* Takes the first packet off, and prints it. */
static void dequeue_packet(struct packet_queue *queue) {
    struct net_base_first_packet first =
        net_base_packets_dequeue(&queue->head, queue->slots, SLOTS, CAPACITY);
    if (first.slot == NET_BASE_NONE) {
        printf("no packet\n");
        return;
    }
    const char *text = (const char *)&queue->bytes[first.from];
    printf("to port %u: \"%.*s\"\n", (unsigned)queue->ports[first.slot], (int)first.size, text);
}

static void use_packets(void) {
    struct packet_queue queue;
    net_base_packets_init(&queue.head);
    enqueue_packet(&queue, 53, "question");
    enqueue_packet(&queue, 69, "files");
    dequeue_packet(&queue);
    enqueue_packet(&queue, 53, "answer");
    enqueue_packet(&queue, 69, "more");
    dequeue_packet(&queue);
    dequeue_packet(&queue);
    dequeue_packet(&queue);
}

/* Hands a part of a text over as a segment, and says what became of it. */
static void receive(struct net_base_finite_receiver *receiver, uint8_t *storage, struct net_base_run *runs,
    const char *text, unsigned from, unsigned size) {
    struct net_base_kept_counts counts = {0, 0};
    enum net_base_segment_status status = net_base_finite_receiver_segment(receiver, storage, CAPACITY, runs,
        MOST_RUNS, from, (const uint8_t *)text + from, size, false, &counts);
    if (status == NET_BASE_SEGMENT_DONE)
        printf("%u to %u: kept %u, ", from, from + size, (unsigned)counts.kept);
    else
        printf("%u to %u: too many runs, ", from, from + size);
    printf("%u are queued\n", (unsigned)receiver->receiver.place.length);
}

/* Segments arrive in any order. Position 0 is the text's first byte. */
static void use_receiver(void) {
    const char *text = "what arrives is read in order";
    uint8_t storage[CAPACITY], into[CAPACITY];
    struct net_base_run runs[MOST_RUNS];
    struct net_base_finite_receiver receiver;
    if (!net_base_finite_receiver_init(&receiver, 0)) return;
    receive(&receiver, storage, runs, text, 5, 3);
    receive(&receiver, storage, runs, text, 10, 2);
    receive(&receiver, storage, runs, text, 13, 2);
    receive(&receiver, storage, runs, text, 0, 6);
    size_t count = net_base_finite_receiver_read(&receiver, storage, CAPACITY, into, CAPACITY);
    printf("read \"%.*s\"\n", (int)count, (const char *)into);
}

int main(void) {
    use_ring();
    use_packets();
    use_receiver();
    return 0;
}
