/* Streams of bytes both ways between two devices over a noisy UART, in frames of one's own, in
 * simulated time. The line flips bits, and loses and inserts bytes. In the third run a device stops
 * reading for a second, and in the last one it restarts.
 *
 * It leaves out of TCP
 * - the SYN: both devices know the first position and the window, and a frame has epochs;
 * - net_bound_receiving_end_classify: no stranger sends, and the ends test each number;
 * - SACK;
 * - a congestion window: nobody else uses the line;
 * - TIME-WAIT: a device that is done still acknowledges.
 *
 * A task owns a device, and the interrupts of its UART touch the two rings alone. To FreeRTOS,
 * which we haven't tried, this is
 * - `wakes = true`: vTaskNotifyGiveFromISR, and portYIELD_FROM_ISR at the end of the interrupt; in
 *   another task xTaskNotifyGive, after it has used a stream buffer between both;
 * - a task that sleeps: ulTaskNotifyTake, for the ticks, rounded up, until the moment of
 *   net_bound_sending_end_expires_at, or for ever if that returns false;
 * - reading and writing: loops that move bytes from and to stream buffers, as many as
 *   xStreamBufferSpacesAvailable and net_bound_sending_end_room allow, until nothing moves;
 * - `transmits`: the bit that enables the interrupt. If the task and the interrupt write the same
 *   register, write it between taskENTER_CRITICAL and taskEXIT_CRITICAL;
 * - `now`: 64 bits. If a tick is a millisecond, add 1000 times the ticks since the last turn,
 *   `(uint32_t)(xTaskGetTickCount() - last)`, and set `.tick` of the bounds to 1000.
 */
#include "byte_ring.h"
#include "net_bound.h"
#include <stdio.h>
#include <string.h>

/* A frame: 16 bits each of the position, of what it acknowledges, and of the window; whether it
 * ends the stream; the epochs of both devices; bytes; a CRC. FLAG is before and after it, ESCAPE
 * before a byte that is flipped.
 */
enum { FLAG = 0x7e, ESCAPE = 0x7d, FLIPS = 0x20, HEADER = 9, SEGMENT = 64, CHECK = 4 };
enum { FRAME = HEADER + SEGMENT + CHECK, ROOM = 1024, BYTES = 20000, BYTE_TIME = 87 };
/* The most bytes of a frame without a segment's bytes, and of one with them: each is escaped. */
enum { SHORTEST = 2 + 2 * (HEADER + CHECK), LONGEST = 2 + 2 * FRAME };
_Static_assert(LONGEST + SHORTEST <= BYTE_RING_SIZE, "the ring has room for a frame and an answer");

/* Where both streams begin: not below 32768, so that also a number before it has a position. */
static const uint64_t FIRST = 65536;
/* `least` has to be more than four of the longest frames and an answer take, which at 115,200 baud
 * is 57 ms, by as much as both tasks may be late. */
static const struct net_base_timeout_bounds BOUNDS = {.least = 100000, .most = 200000};
static uint8_t text[BYTES]; /* Both devices send it. */

struct device {
    struct byte_ring received, to_send; /* The UART's interrupts put and take the bytes. */
    uint8_t frame[FRAME + 1], flips;    /* What has come of a frame; more than FRAME is too long. */
    size_t size;
    struct net_bound_sending_end sending;
    struct net_bound_receiving_end receiving;
    uint8_t outgoing[ROOM], incoming[ROOM], got[BYTES];
    size_t written, read;
    uint8_t epoch, peer; /* This device's, another at each start and never 0; the peer's, or 0. */
    bool wakes;          /* The task has to run. */
    bool transmits;      /* The interrupt when a byte can be sent is enabled. */
    bool rests;          /* The task doesn't read. */
    unsigned frames, again, probes, acknowledgements, damaged;
};

/* CRC-32, since one of 16 bits lets 1 of 65,536 pass. Inverted, so that it sees a zero after it. */
static uint32_t crc(const uint8_t *bytes, size_t size) {
    uint32_t sum = UINT32_MAX;
    for (size_t i = 0; i < 8 * size; i++) {
        if (i % 8 == 0) sum ^= bytes[i / 8];
        sum = sum >> 1 ^ (sum & 1 ? 0xedb88320 : 0);
    }
    return ~sum;
}

static void put_number(uint8_t *at, size_t size, uint64_t number) {
    for (size_t i = 0; i < size; i++) at[i] = (uint8_t)(number >> 8 * i);
}

static uint32_t get_number(const uint8_t *at, size_t size) {
    uint32_t number = 0;
    while (size-- > 0) number = number << 8 | at[size];
    return number;
}

/* The position with these low 16 bits that is near another one: at most 32768 before it. */
static uint64_t position_of(uint32_t number, uint64_t near) {
    return near - 32768 + (uint16_t)(number - (near - 32768));
}

static size_t room(const struct device *d) {
    return BYTE_RING_SIZE - (d->to_send.in - d->to_send.out);
}

static void put_frame(struct device *d, uint64_t position, uint64_t acknowledged, uint16_t window,
    struct net_base_segment_parts parts) {
    uint8_t frame[FRAME];
    size_t size = HEADER + parts.count + parts.rest_count;
    put_number(frame, 2, position);
    put_number(frame + 2, 2, acknowledged);
    put_number(frame + 4, 2, window);
    frame[6] = parts.is_last;
    frame[7] = d->epoch;
    frame[8] = d->peer;
    memcpy(frame + HEADER, d->outgoing + parts.from, parts.count);
    memcpy(frame + HEADER + parts.count, d->outgoing + parts.rest_from, parts.rest_count);
    put_number(frame + size, CHECK, crc(frame, size));
    byte_ring_put(&d->to_send, FLAG); /* Ends what the line inserted before. */
    for (size_t i = 0; i < size + CHECK; i++) {
        bool escapes = frame[i] == FLAG || frame[i] == ESCAPE;
        if (escapes) byte_ring_put(&d->to_send, ESCAPE);
        byte_ring_put(&d->to_send, escapes ? frame[i] ^ FLIPS : frame[i]);
    }
    byte_ring_put(&d->to_send, FLAG);
}

/* Takes bytes from the ring up to the end of a frame. Returns its size without CRC, or 0. */
static size_t find_frame(struct device *d) {
    uint8_t byte;
    while (byte_ring_take(&d->received, &byte)) {
        size_t size = d->size;
        uint8_t flips = d->flips;
        d->flips = byte == ESCAPE ? FLIPS : 0;
        if (byte == FLAG) {
            d->size = 0;
            if (size >= HEADER + CHECK && size <= FRAME
                && get_number(d->frame + size - CHECK, CHECK) == crc(d->frame, size - CHECK))
                return size - CHECK;
            d->damaged += size > 0;
        } else if (byte != ESCAPE && size <= FRAME) {
            d->frame[d->size++] = byte ^ flips;
        }
    }
    return 0;
}

/* Sends a frame without bytes. If there is no room for it, it stays due, or wanted. */
static void acknowledge(struct device *d) {
    struct net_base_acknowledgement told;
    if (room(d) < SHORTEST) return;
    if (!net_bound_receiving_end_acknowledgement(&d->receiving, &told)) return;
    put_frame(d, net_bound_sending_end_empty_segment_position(&d->sending), told.next, told.window,
        (struct net_base_segment_parts){0, 0, 0, 0, false});
    d->acknowledgements++;
}

/* Begins both streams, at a start, and when the peer has started. By Nagle's rule a request or a
 * reply might wait. What is in the rings stays: it has an older epoch. */
static bool begin(struct device *d, uint8_t peer, int64_t now) {
    struct net_base_announcement announced = {FIRST - 1, FIRST, ROOM};
    uint16_t window; /* ROOM, as the peer knows. */
    d->peer = peer;
    d->written = d->read = 0;
    d->wakes = true;
    if (!net_bound_receiving_end_init(&d->receiving, d->incoming, ROOM, FIRST, SEGMENT)
        || !net_bound_receiving_end_open(&d->receiving, FIRST, 0, &window)
        || !net_bound_sending_end_init(&d->sending, d->outgoing, ROOM, FIRST, 200000, &BOUNDS)
        || !net_bound_sending_end_open(&d->sending, &announced, SEGMENT, false, now))
        return false;
    net_bound_sending_end_set_nagle_enabled(&d->sending, false);
    return true;
}

/* Takes a frame that was found: what it acknowledges, its window, its bytes and its end. */
static void take_frame(struct device *d, size_t size, int64_t now) {
    /* The peer has started, and knows nothing of what came before. */
    if (d->frame[7] != d->peer && !begin(d, d->frame[7], now)) return;
    /* The peer doesn't know this start yet: it learns of it by any frame. */
    if (d->frame[8] != d->epoch) {
        acknowledge(d);
        return;
    }
    uint64_t next, unacknowledged = net_bound_sending_end_first_unacknowledged(&d->sending);
    struct net_base_kept_counts counts;
    bool is_last = d->frame[6] != 0, is_empty = size == HEADER && !is_last;
    if (!net_bound_receiving_end_acknowledged(&d->receiving, &next)) return;
    struct net_base_announcement announced = {position_of(get_number(d->frame, 2), next),
        position_of(get_number(d->frame + 2, 2), unacknowledged), get_number(d->frame + 4, 2)};
    struct net_base_taken_acknowledgement taken =
        net_bound_sending_end_acknowledged(&d->sending, &announced, NULL, 0, is_empty, now);
    if (taken.status == NET_BASE_ACKNOWLEDGED_ANSWER)
        return; /* It acknowledges what wasn't sent. */
    /* If bytes aren't kept, an acknowledgement is due at once, and the peer sends them again. */
    (void)net_bound_receiving_end_arrived(
        &d->receiving, announced.seq, d->frame + HEADER, size - HEADER, is_last, &counts);
    if (net_bound_receiving_end_is_due(&d->receiving)) acknowledge(d);
}

/* Sends what may be sent and fits, and leaves room for an acknowledgement. What next_segment
 * returns counts as sent.
 */
static void send_frames(struct device *d, int64_t now) {
    uint64_t next;
    uint16_t window;
    struct net_base_outgoing_segment it;
    d->probes += net_bound_sending_end_expired(&d->sending, now).status == NET_BASE_EXPIRED_PROBE;
    while (room(d) >= LONGEST + SHORTEST
           && (it = net_bound_sending_end_next_segment(&d->sending, UINT64_MAX, now)).status
                  == NET_BASE_OUTGOING_DONE
           && net_bound_receiving_end_announce(&d->receiving, &next, &window)) {
        put_frame(d, it.position, next, window,
            net_bound_sending_end_bytes(&d->sending, it.position, it.end));
        d->frames++;
        d->again += it.is_again;
    }
    if (net_bound_receiving_end_is_wanted(&d->receiving)) acknowledge(d);
}

/* The interrupt of a byte that came. It wakes the task at a frame's end, or for want of room. */
static void on_received(struct device *d, uint8_t byte) {
    bool is_full = !byte_ring_put(&d->received, byte);
    if (is_full || byte == FLAG) d->wakes = true;
}

/* The interrupt when a byte can be sent. If there is none, it ends, and the task may send more. */
static bool on_transmit(struct device *d, uint8_t *byte) {
    if (byte_ring_take(&d->to_send, byte)) return true;
    d->transmits = false;
    d->wakes = true;
    return false;
}

/* The task: it sleeps until it is woken, or until the timer of the sending end. */
static void run_task(struct device *d, int64_t now) {
    size_t size;
    int64_t at;
    bool is_due = net_bound_sending_end_expires_at(&d->sending, &at) && at <= now;
    if (!d->wakes && !is_due) return;
    d->wakes = false;
    while ((size = find_frame(d)) > 0) take_frame(d, size, now);
    if (!d->rests)
        d->read += net_bound_receiving_end_read(&d->receiving, d->got + d->read, BYTES - d->read);
    d->written += net_bound_sending_end_write(&d->sending, text + d->written, BYTES - d->written);
    if (d->written == BYTES) net_bound_sending_end_close(&d->sending);
    send_frames(d, now);
    if (d->to_send.in != d->to_send.out) d->transmits = true;
}

static bool is_done(const struct device *d) {
    return net_bound_receiving_end_has_read_all(&d->receiving)
           && net_bound_sending_end_is_done(&d->sending);
}

static uint64_t random_state;

static unsigned below(unsigned bound) {
    random_state = random_state * 6364136223846793005 + 1442695040888963407;
    return (unsigned)(random_state >> 33) % bound;
}

/* The line takes a byte to the other device, but for those that it loses, and inserts some. */
static void carry(struct device *from, struct device *to) {
    uint8_t byte;
    if (below(8000) == 0) on_received(to, (uint8_t)below(256));
    if (!from->transmits || !on_transmit(from, &byte) || below(8000) == 0) return;
    if (below(4000) == 0) byte ^= (uint8_t)(1U << below(8));
    on_received(to, byte);
}

/* Starts a device, whose rings are empty, with another epoch than before. */
static bool start(struct device *d, uint8_t epoch, int64_t now) {
    memset(d, 0, sizeof *d);
    d->epoch = epoch;
    return begin(d, 0, now);
}

/* Carries the text both ways, and returns whether it came. */
static bool run(unsigned seed, bool rests, bool restarts) {
    static struct device a, b;
    int64_t now = 0;
    random_state = seed;
    for (size_t i = 0; i < BYTES; i++) text[i] = (uint8_t)below(256);
    if (!start(&a, 1, 0) || !start(&b, 1, 0)) return false;
    for (unsigned i = 0; i < 1000000 && !(is_done(&a) && is_done(&b)); i++, now += BYTE_TIME) {
        carry(&a, &b);
        carry(&b, &a);
        if (restarts && i == 10000 && !start(&b, 2, now)) return false;
        b.rests = rests && i > 10000 && i <= 20000;
        if (rests && i == 20001) b.wakes = true; /* Whoever reads again wakes the task. */
        if (i % 8 == 0) run_task(&a, now);
        if (i % 8 == 4) run_task(&b, now);
    }
    bool is_same = a.read == BYTES && b.read == BYTES && memcmp(a.got, text, BYTES) == 0
                   && memcmp(b.got, text, BYTES) == 0 && is_done(&a) && is_done(&b);
    printf("seed %u%s: %u frames (%u again, %u probes), %u acknowledgements, ", seed,
        rests      ? ", a rest"
        : restarts ? ", a restart"
                   : "",
        a.frames + b.frames, a.again + b.again, a.probes + b.probes,
        a.acknowledgements + b.acknowledgements);
    printf("%u damaged, %u ms: %s\n", a.damaged + b.damaged, (unsigned)(now / 1000),
        is_same ? "same" : "not the same");
    return is_same;
}

int main(void) {
    printf("frames: %d bytes each way\n", BYTES);
    bool is_same = true;
    for (unsigned seed = 0; seed < 4; seed++) is_same &= run(seed, seed == 2, seed == 3);
    return !is_same;
}
