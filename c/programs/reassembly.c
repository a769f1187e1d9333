/* A test, and no driver: UDP datagrams that arrive as IPv4 fragments, some twice, some not at all,
 * are put together, checked and queued. Each that is queued is answered by an echo, which is
 * compared. All are of one peer, without IP options.
 */
#include "net_bound.h"
#include <stdio.h>
#include <stdlib.h>
#include <string.h>

enum {
    LONGEST = 2048,
    RUNS = 4,
    CONTEXTS = 3,
    SLOTS = 4,
    ROOM = 4096,
    TIMEOUT = 30000000,
    IP = 20,
    UDP = 8,
    MOST_FRAGMENTS = 64
};

/* A datagram that isn't whole yet. */
struct context {
    bool is_used;
    uint16_t id;
    struct net_bound_fragments fragments;
    struct net_base_run runs[RUNS];
    uint8_t bytes[LONGEST];
};

static struct context contexts[CONTEXTS];
static struct net_bound_packets queue;
static struct net_base_packet_slot slots[SLOTS];
static uint16_t ports[SLOTS];
static uint8_t queued[ROOM];
static uint64_t random_state;
static unsigned long expired, lost;

/* A number below `bound`: 32 bits of a xorshift generator. */
static unsigned below(uint32_t bound) {
    random_state ^= random_state << 13;
    random_state ^= random_state >> 7;
    random_state ^= random_state << 17;
    return (unsigned)((random_state >> 32) * bound >> 32);
}

static void must(bool holds, const char *what) {
    if (holds) return;
    printf("reassembly: %s\n", what);
    exit(1);
}

static void put16(uint8_t *at, size_t value) {
    at[0] = (uint8_t)(value >> 8);
    at[1] = (uint8_t)value;
}

static uint16_t get16(const uint8_t *at) { return (uint16_t)(at[0] << 8 | at[1]); }

/* The sum of a UDP message and its pseudo-header. */
static struct net_base_parts_sum sum_of(const uint8_t *message, size_t size) {
    static const uint8_t addresses[8] = {10, 0, 0, 1, 10, 0, 0, 2};
    uint8_t rest[4] = {0, 17, 0, 0};
    struct net_base_parts_sum sum;
    put16(rest + 2, size);
    net_base_parts_sum_init(&sum);
    net_base_parts_sum_add(&sum, addresses, sizeof addresses);
    net_base_parts_sum_add(&sum, rest, sizeof rest);
    net_base_parts_sum_add(&sum, message, size);
    return sum;
}

/* Makes a message between two ports, whose data are behind its header. UDP has no checksum 0. */
static void finish(uint8_t *message, size_t size, uint16_t from, uint16_t to) {
    put16(message, from);
    put16(message + 2, to);
    put16(message + 4, size);
    put16(message + 6, 0);
    struct net_base_parts_sum sum = sum_of(message, size);
    uint16_t checksum = net_base_parts_sum_checksum(&sum);
    put16(message + 6, checksum ? checksum : 0xffff);
}

/* The context of a datagram, perhaps a new one; none if all are used. */
static struct context *context_of(uint16_t id, int64_t now) {
    struct context *found = NULL;
    for (int i = 0; i < CONTEXTS; i++) {
        struct context *it = &contexts[i];
        if (it->is_used && it->fragments.head.expires_at < now) {
            it->is_used = false;
            expired++;
        }
        if (it->is_used && it->id == id) return it;
        if (!it->is_used) found = it;
    }
    if (found == NULL) return NULL;
    net_bound_fragments_init(
        &found->fragments, found->bytes, LONGEST, found->runs, RUNS, now + TIMEOUT);
    found->is_used = true;
    found->id = id;
    return found;
}

static void deliver(const uint8_t *message, size_t size) {
    struct net_base_parts_sum sum = sum_of(message, size);
    must(net_base_parts_sum_checksum(&sum) == 0, "the checksum of a datagram is wrong");
    struct net_base_packet_place place;
    must(net_bound_packets_enqueue(&queue, size - UDP, &place), "the queue is full");
    ports[place.slot] = get16(message);
    memcpy(queued + place.from, message + UDP, size - UDP);
}

static void take_fragment(const uint8_t *frame, size_t size, int64_t now) {
    struct net_base_parts_sum sum = {0, 0};
    net_base_parts_sum_add(&sum, frame, IP);
    must(net_base_parts_sum_checksum(&sum) == 0, "the checksum of a header is wrong");
    size_t offset = (size_t)(get16(frame + 6) & 0x1fff) * 8, whole;
    struct context *it = context_of(get16(frame + 4), now);
    if (it == NULL) return;
    if (net_bound_fragments_differs(&it->fragments, offset, frame + IP, size - IP)) {
        it->is_used = false;
        return;
    }
    enum net_base_fragment_status status = NET_BASE_FRAGMENT_OTHER_SIZE;
    if ((frame[6] & 0x20) != 0
        || net_bound_fragments_set_total_size(&it->fragments, offset + size - IP)
               == NET_BASE_SIZE_DONE)
        status = net_bound_fragments_add(&it->fragments, offset, frame + IP, size - IP);
    must(status == NET_BASE_FRAGMENT_DONE || status == NET_BASE_FRAGMENT_TOO_MANY_RUNS, "add");
    if (net_bound_fragments_complete(&it->fragments, &whole)) {
        deliver(it->bytes, whole);
        it->is_used = false;
    }
}

/* Takes a datagram off the queue, and writes the answer; 0 if there is none. */
static size_t echo(uint8_t *into) {
    struct net_base_first_packet first;
    if (!net_bound_packets_dequeue(&queue, &first)) return 0;
    memcpy(into + UDP, queued + first.from, first.size);
    finish(into, first.size + UDP, 7, ports[first.slot]);
    return first.size + UDP;
}

/* Sends a datagram in fragments of at most `step` bytes. Returns whether one was lost. */
static bool send(const uint8_t *message, size_t size, size_t step, uint16_t id, int64_t *now) {
    static uint8_t frames[MOST_FRAGMENTS][IP + LONGEST];
    size_t sizes[MOST_FRAGMENTS], count = 0;
    for (size_t offset = 0; offset < size; offset += step, count++) {
        size_t part = size - offset < step ? size - offset : step;
        uint8_t *frame = frames[count];
        struct net_base_parts_sum sum = {0, 0};
        memset(frame, 0, IP);
        frame[0] = 0x45;
        put16(frame + 2, IP + part);
        put16(frame + 4, id);
        put16(frame + 6, offset / 8 | (offset + part < size ? 0x2000 : 0));
        frame[9] = 17;
        net_base_parts_sum_add(&sum, frame, IP);
        put16(frame + 10, net_base_parts_sum_checksum(&sum));
        memcpy(frame + IP, message + offset, part);
        sizes[count] = IP + part;
    }
    bool is_lost = false;
    for (size_t i = 0; i < count; i++) {
        /* Neighbours change places now and then. */
        size_t at = i + 1 < count && below(4) == 0 ? i + 1 : i;
        if (below(50) == 0)
            is_lost = true;
        else
            for (unsigned copies = below(10) == 0 ? 2 : 1; copies > 0; copies--)
                take_fragment(frames[at], sizes[at], *now += 1000);
        if (at != i) take_fragment(frames[i], sizes[i], *now += 1000), i++;
    }
    return is_lost;
}

int main(void) {
    static uint8_t message[LONGEST], answer[LONGEST];
    unsigned long sent = 0, answered = 0;
    int64_t now = 0;
    struct net_base_first_packet first;
    net_bound_packets_init(&queue, queued, ROOM, slots, SLOTS);
    for (random_state = 1; sent < 2000; sent++) {
        size_t size = UDP + 1 + below(1500), step = (80 + below(600)) & ~7u;
        uint16_t port = (uint16_t)(1025 + below(64511));
        for (size_t i = UDP; i < size; i++) message[i] = (uint8_t)below(256);
        finish(message, size, port, 7);
        if (send(message, size, step, (uint16_t)sent, &now))
            lost++;
        else
            must(net_bound_packets_peek(&queue, &first), "a datagram is missing");
        for (size_t count; (count = echo(answer)) > 0; answered++)
            must(count == size && get16(answer + 2) == port
                     && memcmp(answer + UDP, message + UDP, size - UDP) == 0,
                "another answer");
        now += 40000000;
    }
    printf("reassembly: %lu datagrams, %lu answered, %lu lost, %lu expired\n", sent, answered, lost,
        expired);
    return 0;
}
