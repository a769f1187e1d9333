/* Streams of bytes over a link that loses, repeats and reorders segments, in simulated time:
 * `stream [STREAMS]`. Each end is one machine: what is sent and when, what is acknowledged and
 * which window is announced. The program has the link, the clock and the numbers of 32 bits. What
 * arrives is compared with what was sent.
 */
#include "net_bound.h"
#include <stdio.h>
#include <stdlib.h>
#include <string.h>

enum {
    MSS = 100,
    ROOM = 1500,
    WINDOW = 1200,
    BLOCKS = 4,
    SCALE = 2,
    IN_FLIGHT = 256,
    LONGEST = 20000
};

struct segment {
    int64_t arrives;
    uint32_t number, acknowledged, blocks[BLOCKS][2];
    uint16_t window;
    bool is_last;
    size_t block_count, size;
    uint8_t bytes[MSS];
};

struct link {
    struct segment segments[IN_FLIGHT];
    size_t count;
};

static uint64_t random_state;
/* The number of the stream's beginning. */
static uint32_t initial;
static unsigned loss, most_delay;
static unsigned long sent_again, expired, probes;

/* A number below `bound`: 32 bits of a xorshift generator. */
static unsigned below(uint32_t bound) {
    random_state ^= random_state << 13;
    random_state ^= random_state >> 7;
    random_state ^= random_state << 17;
    return (unsigned)((random_state >> 32) * bound >> 32);
}

static void must(bool holds, const char *what) {
    if (holds) return;
    printf("stream: %s\n", what);
    exit(1);
}

/* Some are lost, and some arrive twice. */
static void put(struct link *link, const struct segment *segment, int64_t now) {
    unsigned copies = below(100) < loss ? 0 : below(20) == 0 ? 2 : 1;
    for (; copies > 0 && link->count < IN_FLIGHT; copies--) {
        link->segments[link->count] = *segment;
        link->segments[link->count++].arrives = now + 20000 + below(most_delay);
    }
}

static bool take(struct link *link, int64_t now, struct segment *segment) {
    for (size_t i = 0; i < link->count; i++) {
        if (link->segments[i].arrives > now) continue;
        *segment = link->segments[i];
        link->segments[i] = link->segments[--link->count];
        return true;
    }
    return false;
}

/* The two ends of a stream, where their bytes are, and the ways between them. */
static struct net_bound_sending_end from;
static struct net_bound_receiving_end to;
static struct net_base_answer_limit limit;
static uint8_t outgoing[ROOM], incoming[WINDOW];
static struct link there, back;

static const struct net_base_timeout_bounds BOUNDS = {200000, 60000000, 1000, 0};

/* The position of a number near another position; none is so far up as UINT64_MAX. */
static uint64_t position_of(uint32_t number, uint64_t near) {
    uint64_t position;
    if (!net_base_sequence_number_position(number, initial, near, &position)) return UINT64_MAX;
    return position;
}

/* Sends what may be sent now. There is no congestion window. */
static void send_segments(int64_t now) {
    struct net_base_outgoing_segment next;
    struct net_base_ended_timer ended = net_bound_sending_end_expired(&from, now);
    must(ended.status != NET_BASE_EXPIRED_REFUSED, "expired");
    expired += ended.status == NET_BASE_EXPIRED_LOST;
    probes += ended.status == NET_BASE_EXPIRED_OVERDUE || ended.status == NET_BASE_EXPIRED_PROBE;
    while (next = net_bound_sending_end_next_segment(&from, UINT64_MAX, now),
        next.status == NET_BASE_OUTGOING_DONE) {
        struct net_base_segment_parts parts =
            net_bound_sending_end_bytes(&from, next.position, next.end);
        must(parts.count > 0 || parts.is_last, "bytes");
        struct segment segment = {.number = initial + (uint32_t)next.position,
            .is_last = parts.is_last,
            .size = parts.count + parts.rest_count};
        memcpy(segment.bytes, outgoing + parts.from, parts.count);
        memcpy(segment.bytes + parts.count, outgoing + parts.rest_from, parts.rest_count);
        sent_again += next.is_again;
        put(&there, &segment, now);
    }
    must(next.status == NET_BASE_OUTGOING_NOTHING, "next_segment");
}

static void take_acknowledgement(const struct segment *segment, int64_t now) {
    struct net_base_held_run blocks[BLOCKS];
    struct net_base_announcement announced = {0,
        position_of(segment->acknowledged, from.head.sender.sent),
        (uint64_t)segment->window << SCALE};
    for (size_t i = 0; i < segment->block_count; i++) {
        blocks[i].start = position_of(segment->blocks[i][0], announced.ack);
        blocks[i].end = position_of(segment->blocks[i][1], announced.ack);
    }
    struct net_base_taken_acknowledgement taken = net_bound_sending_end_acknowledged(
        &from, &announced, blocks, segment->block_count, true, now);
    must(taken.status != NET_BASE_ACKNOWLEDGED_REFUSED, "acknowledged");
}

static void acknowledge(int64_t now) {
    struct net_base_acknowledgement told;
    must(net_bound_receiving_end_acknowledgement(&to, &told), "acknowledgement");
    struct segment segment = {.acknowledged = initial + (uint32_t)told.next,
        .window = told.window,
        .block_count = told.block_count};
    for (size_t i = 0; i < told.block_count; i++) {
        segment.blocks[i][0] = initial + (uint32_t)told.blocks[i].start;
        segment.blocks[i][1] = initial + (uint32_t)told.blocks[i].end;
    }
    put(&back, &segment, now);
}

/* Takes a segment that has arrived, and acknowledges it if that is due. */
static void take_segment(const struct segment *segment, int64_t now) {
    uint64_t next;
    struct net_base_kept_counts counts;
    must(net_bound_receiving_end_acknowledged(&to, &next), "next");
    struct net_base_segment numbers = {
        position_of(segment->number, next), segment->size + segment->is_last, false, true, false};
    enum net_base_arrival_status arrival = net_bound_receiving_end_classify(&to, &numbers);
    bool answers = arrival == NET_BASE_ARRIVAL_ANSWER
                   && net_base_answer_limit_allows(&limit, &numbers, now);
    if (answers || arrival == NET_BASE_ARRIVAL_ACKNOWLEDGEMENT_ONLY)
        net_bound_receiving_end_answer(&to);
    /* All of it came before: the answer says so (RFC 2883). Nothing of it is kept. */
    bool is_old = answers && numbers.seq <= next && segment->size <= next - numbers.seq;
    if (arrival == NET_BASE_ARRIVAL_TAKE || is_old)
        must(net_bound_receiving_end_arrived(&to, numbers.seq, segment->bytes, segment->size,
                 segment->is_last && !is_old, &counts)
                 == NET_BASE_SEGMENT_DONE,
            "arrived");
    if (net_bound_receiving_end_is_due(&to)) acknowledge(now);
}

/* One stream, which begins at a position, and whose reader is slow or isn't. */
static void run(uint64_t first, const uint8_t *data, size_t size, bool is_slow) {
    static uint8_t read[LONGEST];
    uint16_t window;
    size_t written = 0, count = 0;
    memset(&to, 0xa5, sizeof to);
    memset(&from, 0xa5, sizeof from);
    initial = below(UINT32_MAX);
    there.count = back.count = 0;
    net_base_answer_limit_init(&limit);
    must(net_bound_receiving_end_init(&to, incoming, WINDOW, first, MSS), "init");
    must(net_bound_receiving_end_open(&to, first, SCALE, &window), "open");
    must(net_bound_sending_end_init(&from, outgoing, ROOM, first, 1000000, &BOUNDS), "init");
    struct net_base_announcement opened = {0, first, window};
    must(net_bound_sending_end_open(&from, &opened, MSS, true, 0), "open");
    for (int64_t now = 0; !net_bound_receiving_end_has_read_all(&to)
                          || !net_bound_sending_end_is_done(&from);
         now += 1000) {
        struct segment segment;
        must(now < INT64_C(40000000000), "it doesn't end");
        written += net_bound_sending_end_write(&from, data + written, size - written);
        if (written == size) net_bound_sending_end_close(&from);
        send_segments(now);
        while (take(&there, now, &segment)) take_segment(&segment, now);
        while (take(&back, now, &segment)) take_acknowledgement(&segment, now);
        if (!is_slow || below(20) == 0)
            count += net_bound_receiving_end_read(&to, read + count, LONGEST - count);
        if (net_bound_receiving_end_is_wanted(&to)) acknowledge(now);
    }
    must(count == size && memcmp(read, data, size) == 0, "other bytes arrived");
}

int main(int count, char **words) {
    static uint8_t data[LONGEST];
    int streams = count > 1 ? atoi(words[1]) : 50;
    unsigned long bytes = 0;
    for (int i = 1; i <= streams; i++) {
        random_state = (uint64_t)i;
        loss = below(25);
        most_delay = 1000 + below(60000);
        size_t size = below(LONGEST);
        for (size_t at = 0; at < size; at++) data[at] = (uint8_t)below(256);
        run(i % 3 == 0 ? UINT64_C(1) << 32 : (uint64_t)i, data, size, i % 5 == 0);
        bytes += size;
    }
    printf("stream: %d streams, %lu bytes; sent again %lu, timer expired %lu, probes %lu\n",
        streams, bytes, sent_again, expired, probes);
    return 0;
}
