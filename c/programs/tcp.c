/* An echo server over a TCP of its own, which talks to Linux's: `tcp DEVICE [CONNECTIONS [LOST]]`.
 * It has the address and the port HERE behind a TUN device. It serves one connection at a time, and
 * ends after as many as it is told, or one. `tcp DEVICE connect [LOST]` connects to an echo server
 * THERE, and has status 0 if the same comes back. Of 100 packets LOST are lost, both ways, to try
 * that. A peer may send anything: no reply of the library ends the program. `sh c/programs/tcp.sh`
 * runs it.
 */
#define _DEFAULT_SOURCE
#include "headers.h"
#include <fcntl.h>
#include <linux/if_tun.h>
#include <net/if.h>
#include <poll.h>
#include <stdio.h>
#include <stdlib.h>
#include <sys/ioctl.h>
#include <time.h>
#include <unistd.h>

/* An end has 16 ranges. With 8 segments for each of them few are refused if 5 of 100 are lost. */
enum { SEGMENTS = 128, ROOM = SEGMENTS * MSS };
enum { LEAST_MSS = 64, DEFAULT_MSS = 536, SCALE = 2, PSH = 8, ECHOED = 1 << 20 };
_Static_assert(ROOM >> SCALE <= UINT16_MAX, "a header can announce a window of all the room");

static const struct place HERE = {{10, 77, 0, 2}, {0, 7}}, THERE = {{10, 77, 0, 1}, {0, 7}};
/* RFC 6298 wants a second at least. Linux too waits 0.2 s. */
static const struct net_base_timeout_bounds BOUNDS = {.least = 200000, .ack_delay = 200000};
static const struct net_base_segment_parts NO_BYTES = {0, 0, 0, 0, false};

static int device;
static uint64_t random_state = 1;
static unsigned lost, ended;
/* Whether the program connects; what it sends then, what came back, and how much was written. */
static bool connects;
static uint8_t content[ECHOED], returned[ECHOED];
static size_t written, came;

/* The connection. `opening` is its SYN, or SYN+ACK. WAITS: how long a state lasts after the peer
 * was heard (RFC 9293, 3.8.3). TIME-WAIT is twice an MSL of half a second. The RFC's has 2 minutes,
 * for paths on which a segment may be as late; here all that comes then is a FIN again. */
static enum { LISTEN, SYN_SENT, SYN_RECEIVED, ESTABLISHED, TIME_WAIT } state;
static const int64_t WAITS[] = {0, 180000000, 180000000, 100000000, 1000000};
static struct net_bound_sending_end sending;
static struct net_bound_receiving_end receiving;
static struct net_base_answer_limit limit;
static uint8_t outgoing[ROOM], incoming[ROOM];
static struct header opening;
static uint8_t peer_scale;
static int64_t heard_at;
/* How much may be in flight, how far that grows by slow start, and both as they were before the
 * last recovery, which lasts until all below `recovers_until` is acknowledged. */
static uint64_t window, threshold, saved_window, saved_threshold, recovers_until;
static size_t segment_size;

/* Whether a packet is lost: 32 bits of a xorshift generator say so. */
static bool is_lost(void) {
    random_state ^= random_state << 13;
    random_state ^= random_state >> 7;
    random_state ^= random_state << 17;
    return (random_state >> 32) * 100 >> 32 < lost;
}

/* Sends a segment with bytes of `outgoing`. What the device doesn't take is lost, and no matter. */
static void put(const struct header *h, struct net_base_segment_parts parts) {
    uint8_t packet[PACKET];
    size_t size = put_packet(packet, h, outgoing + parts.from, parts.count,
        outgoing + parts.rest_from, parts.rest_count);
    if (!is_lost() && write(device, packet, size) < 0) return;
}

/* A segment to the peer of a connection, or of a segment that belongs to none. */
static struct header header_to(struct place peer, uint64_t position, uint8_t flags) {
    return (struct header){.from = HERE, .to = peer, .number = (uint32_t)position, .flags = flags};
}

/* The position of the first byte after a SYN: the low 32 bits of a position are its number. */
static uint64_t first_after(uint32_t syn) {
    return (UINT64_C(1) << 32) + syn + 1;
}

/* The position of a number near another position: each number has one, as none is below 2^32. */
static uint64_t position_of(uint32_t number, uint64_t near) {
    uint64_t position;
    if (!net_base_sequence_number_position(number, 0, near, &position)) return UINT64_MAX;
    return position;
}

/* Something was lost: half of what is in flight may be now; after a timeout one segment. In a
 * recovery nothing is saved: `take_back` undoes all of it. */
static void shrink(bool is_timeout) {
    uint64_t flight = net_bound_sending_end_flight_size(&sending);
    uint64_t first = net_bound_sending_end_first_unacknowledged(&sending);
    if (first >= recovers_until) {
        saved_window = window;
        saved_threshold = threshold;
    }
    recovers_until = first + flight;
    threshold = flight > 4 * segment_size ? flight / 2 : 2 * segment_size;
    window = is_timeout ? segment_size : threshold;
}

/* Slow start, after a timeout by less (RFC 3465), and congestion avoidance (RFC 5681), but not in a
 * recovery, nor above the room that there is. */
static void grow(uint64_t count) {
    bool is_recovering = net_bound_sending_end_is_recovering(&sending);
    uint64_t most = is_recovering ? segment_size : 2 * segment_size;
    if (window < threshold)
        window += count < most ? count : most;
    else if (!is_recovering)
        window += segment_size * count / window;
    if (window > ROOM) window = ROOM;
}

/* Sends what may be sent now. Each segment acknowledges what has come. The last one pushes. */
static void send_segments(int64_t now) {
    uint64_t next;
    struct net_base_outgoing_segment segment;
    struct net_base_ended_timer timer = net_bound_sending_end_expired(&sending, now);
    if (timer.begins || timer.status == NET_BASE_EXPIRED_LOST)
        shrink(timer.status == NET_BASE_EXPIRED_LOST);
    while (segment = net_bound_sending_end_next_segment(&sending, window, now),
        segment.status == NET_BASE_OUTGOING_DONE) {
        struct net_base_segment_parts parts =
            net_bound_sending_end_bytes(&sending, segment.position, segment.end);
        struct header h = header_to(opening.to, segment.position, parts.is_last ? ACK | FIN : ACK);
        if (net_bound_sending_end_bytes(&sending, segment.end, UINT64_MAX).count == 0)
            h.flags |= PSH;
        if (!net_bound_receiving_end_announce(&receiving, &next, &h.window)) return;
        h.acknowledged = (uint32_t)next;
        put(&h, parts);
    }
}

/* Sends an acknowledgement alone. Its blocks are only for a peer whose SYN permits them. */
static void acknowledge(void) {
    struct net_base_acknowledgement told;
    if (!net_bound_receiving_end_acknowledgement(&receiving, &told)) return;
    uint64_t position = net_bound_sending_end_empty_segment_position(&sending);
    struct header h = header_to(opening.to, position, ACK);
    h.acknowledged = (uint32_t)told.next;
    h.window = told.window;
    h.block_count = opening.selective ? told.block_count : 0;
    for (size_t i = 0; i < h.block_count; i++) {
        h.blocks[i][0] = (uint32_t)told.blocks[i].start;
        h.blocks[i][1] = (uint32_t)told.blocks[i].end;
    }
    put(&h, NO_BYTES);
}

/* Answers a segment that belongs to no connection. */
static void reset(const struct header *h) {
    struct header answer = header_to(h->from, h->acknowledged, RST);
    if ((h->flags & (ACK | RST)) == ACK) put(&answer, NO_BYTES);
}

/* Begins a connection by a SYN of all options, whose window the least MSS leaves room for. Nagle's
 * rule is on: `net_bound_sending_end_set_nagle_enabled` is for small writes that mustn't wait. */
static void begin(struct place peer, int64_t now) {
    uint32_t initial;
    if (getentropy(&initial, sizeof initial) != 0) return;
    opening = header_to(peer, initial, SYN);
    opening.window = SEGMENTS * LEAST_MSS;
    opening.mss = MSS;
    opening.scale = SCALE;
    opening.has_scale = opening.selective = true;
    heard_at = now;
    if (net_bound_sending_end_init(&sending, outgoing, ROOM, first_after(initial), 0, &BOUNDS))
        state = SYN_SENT;
}

/* Takes the peer's SYN. Then `opening` is the SYN+ACK, with the options that both ends have. */
static void take_syn(const struct header *h, int64_t now) {
    uint64_t first = first_after(h->number);
    struct net_base_announcement announced = {first - 1, first_after(opening.number), h->window};
    opening.flags = SYN | ACK;
    opening.acknowledged = (uint32_t)first;
    opening.selective = h->selective;
    opening.has_scale = h->has_scale;
    opening.scale = h->has_scale ? SCALE : 0;
    peer_scale = h->scale;
    segment_size = h->mss == 0 ? DEFAULT_MSS : h->mss < LEAST_MSS ? LEAST_MSS : h->mss;
    if (segment_size > MSS) segment_size = MSS;
    size_t room = SEGMENTS * segment_size;
    window = 10 * segment_size; /* RFC 6928 */
    threshold = UINT64_MAX;
    recovers_until = 0;
    heard_at = now;
    net_base_answer_limit_init(&limit);
    if (net_bound_receiving_end_init(&receiving, incoming, room, first, MSS)
        && net_bound_receiving_end_open(&receiving, first, opening.scale, &opening.window)
        && net_bound_sending_end_open(&sending, &announced, segment_size, h->selective, now))
        state = h->flags & ACK ? ESTABLISHED : SYN_RECEIVED;
}

/* Takes what comes before the peer's SYN, or that (RFC 9293, 3.10.7.3). If it acknowledges nothing,
 * the SYN+ACK is due: this end has listened, or both open at once. */
static void take_opening(const struct header *h, int64_t now) {
    bool acknowledges = h->flags & ACK;
    if (acknowledges && h->acknowledged != opening.number + 1)
        reset(h);
    else if (h->flags & RST)
        state = acknowledges ? LISTEN : SYN_SENT;
    else if (h->flags & SYN)
        take_syn(h, now);
    if (state == ESTABLISHED) acknowledge();
}

static void end_connection(void) {
    ended += state == TIME_WAIT || (state == ESTABLISHED && !connects);
    state = LISTEN;
}

/* Gives up, and says so (RFC 9293, 3.10.5): after all that was sent, or at the end of the peer's
 * window if that is before it, since no RST is taken beyond. */
static void abort_connection(void) {
    uint64_t position = net_bound_sending_end_empty_segment_position(&sending);
    struct header h = header_to(opening.to, position, RST);
    if (state == SYN_RECEIVED || state == ESTABLISHED) put(&h, NO_BYTES);
    end_connection();
}

/* Takes what a segment acknowledges, its window and its blocks. Returns how to go on with it. */
static enum net_base_arrival_status take_acknowledgement(const struct header *h,
    const struct net_base_segment *numbers, enum net_base_arrival_status arrival, int64_t now) {
    struct net_base_held_run blocks[BLOCKS];
    uint64_t near = net_bound_sending_end_first_unacknowledged(&sending);
    struct net_base_announcement announced = {
        numbers->seq, position_of(h->acknowledged, near), (uint64_t)h->window << peer_scale};
    for (size_t i = 0; i < h->block_count; i++) {
        blocks[i].start = position_of(h->blocks[i][0], announced.ack);
        blocks[i].end = position_of(h->blocks[i][1], announced.ack);
    }
    struct net_base_taken_acknowledgement taken = net_bound_sending_end_acknowledged(
        &sending, &announced, blocks, h->block_count, numbers->len == 0, now);
    if (state == SYN_RECEIVED && taken.status != NET_BASE_ACKNOWLEDGED_DONE) {
        reset(h);
        return NET_BASE_ARRIVAL_IGNORE;
    }
    if (state == SYN_RECEIVED) state = ESTABLISHED;
    if (taken.status != NET_BASE_ACKNOWLEDGED_ANSWER) heard_at = now;
    if (taken.begins)
        shrink(false);
    else
        grow(taken.count);
    if (net_bound_sending_end_take_back(&sending)) {
        window = window > saved_window ? window : saved_window;
        threshold = saved_threshold;
    }
    return taken.status == NET_BASE_ACKNOWLEDGED_ANSWER ? NET_BASE_ARRIVAL_ANSWER : arrival;
}

/* Takes a segment of the connection: what it acknowledges, its bytes and its end. */
static void take_segment(const struct header *h, const uint8_t *data, size_t size, int64_t now) {
    uint64_t next;
    struct net_base_kept_counts counts;
    bool syn = h->flags & SYN, fin = h->flags & FIN, rst = h->flags & RST;
    if (!net_bound_receiving_end_acknowledged(&receiving, &next)) return;
    struct net_base_segment numbers = {
        position_of(h->number, next), size + syn + fin, syn, h->flags & ACK, rst};
    enum net_base_arrival_status arrival = net_bound_receiving_end_classify(&receiving, &numbers);
    if (arrival == NET_BASE_ARRIVAL_RESET) end_connection();
    if (arrival == NET_BASE_ARRIVAL_TAKE || arrival == NET_BASE_ARRIVAL_ACKNOWLEDGEMENT_ONLY)
        arrival = take_acknowledgement(h, &numbers, arrival, now);
    bool answers =
        arrival == NET_BASE_ARRIVAL_ANSWER && net_base_answer_limit_allows(&limit, &numbers, now);
    if (answers || arrival == NET_BASE_ARRIVAL_ACKNOWLEDGEMENT_ONLY)
        net_bound_receiving_end_answer(&receiving);
    /* All of it came before: the answer says so (RFC 2883). Nothing of it is kept. */
    bool is_old = answers && !syn && !rst && numbers.seq <= next && size <= next - numbers.seq;
    bool takes = arrival == NET_BASE_ARRIVAL_TAKE && numbers.len > 0;
    /* Whatever isn't kept, the peer sends again. */
    if ((takes || is_old)
        && net_bound_receiving_end_arrived(
               &receiving, numbers.seq, data, size, takes && fin, &counts)
               == NET_BASE_SEGMENT_REFUSED)
        return;
    if (net_bound_receiving_end_is_due(&receiving)) acknowledge();
}

/* Takes a packet that has come. While there is a connection, those of other peers are dropped. */
static void take_packet(const uint8_t *packet, size_t size, int64_t now) {
    struct header h;
    const uint8_t *data = get_packet(packet, &size, &h);
    if (data == NULL || memcmp(&h.to, &HERE, sizeof HERE) != 0) return;
    bool opens = (h.flags & (SYN | ACK | RST | FIN)) == SYN;
    if (state == LISTEN && opens && !connects) begin(h.from, now);
    if (state == LISTEN)
        reset(&h);
    else if (memcmp(&h.from, &opening.to, sizeof h.from) != 0)
        return;
    else if (state == SYN_SENT)
        take_opening(&h, now);
    else if (state == SYN_RECEIVED && opens && h.number + 1 == opening.acknowledged)
        put(&opening, NO_BYTES); /* The first one was lost. */
    else
        take_segment(&h, data, size, now);
    if (state == TIME_WAIT && (h.flags & FIN)) heard_at = now;
    if (state != ESTABLISHED || !net_bound_receiving_end_has_read_all(&receiving)
        || !net_bound_sending_end_is_done(&sending))
        return;
    state = TIME_WAIT;
    if (!connects) end_connection(); /* The peer closed first, so TIME-WAIT is the peer's. */
}

/* Writes back what has come, as far as there is room, and closes after the peer's last byte. */
static void echo(void) {
    uint8_t bytes[4096];
    size_t room, count;
    do {
        room = net_bound_sending_end_room(&sending);
        count = net_bound_receiving_end_read(
            &receiving, bytes, room < sizeof bytes ? room : sizeof bytes);
    } while (count > 0 && net_bound_sending_end_write(&sending, bytes, count) == count);
    if (net_bound_receiving_end_has_read_all(&receiving)) net_bound_sending_end_close(&sending);
}

/* Writes `content`, and closes first, once the same has come back. */
static void exchange(void) {
    written += net_bound_sending_end_write(&sending, content + written, ECHOED - written);
    came += net_bound_receiving_end_read(&receiving, returned + came, ECHOED - came);
    if (came == ECHOED && memcmp(content, returned, ECHOED) == 0)
        net_bound_sending_end_close(&sending);
    else if (came == ECHOED || net_bound_receiving_end_has_read_all(&receiving))
        abort_connection();
}

/* Does what is due now. Returns for how many milliseconds to wait for a packet, or -1: for ever.
 * This program delays no acknowledgement. If yours does, keep its deadline here too. An idle
 * peer is let go too, though TCP doesn't: its reset may be lost, or beyond a full window. */
static int proceed(int64_t now) {
    int64_t at, gives_up_at = heard_at + WAITS[state];
    if (state != LISTEN && gives_up_at <= now) abort_connection();
    if (state == LISTEN) return -1;
    if (state < ESTABLISHED && net_bound_sending_end_is_opening_due(&sending, now))
        put(&opening, NO_BYTES);
    if (state == ESTABLISHED) connects ? exchange() : echo();
    if (state == ESTABLISHED) {
        send_segments(now);
        if (net_bound_receiving_end_is_wanted(&receiving)) acknowledge();
    }
    if (!net_bound_sending_end_expires_at(&sending, &at) || at > gives_up_at) at = gives_up_at;
    return at > now ? (int)((at - now) / 1000) + 1 : 0;
}

static int64_t microseconds(void) {
    struct timespec now;
    clock_gettime(CLOCK_MONOTONIC, &now);
    return (int64_t)now.tv_sec * 1000000 + now.tv_nsec / 1000;
}

int main(int count, char **words) {
    unsigned connections = count > 2 ? (unsigned)atoi(words[2]) : 1;
    connects = count > 2 && strcmp(words[2], "connect") == 0;
    struct ifreq request = {.ifr_flags = IFF_TUN | IFF_NO_PI};
    lost = count > 3 ? (unsigned)atoi(words[3]) : 0;
    device = open("/dev/net/tun", O_RDWR | O_NONBLOCK);
    if (count > 1) strncpy(request.ifr_name, words[1], IFNAMSIZ - 1);
    if (device < 0 || ioctl(device, TUNSETIFF, &request) != 0) {
        perror("tcp: the TUN device");
        return 1;
    }
    puts(connects ? "tcp: connects" : "tcp: listens");
    fflush(stdout);
    for (uint32_t i = 0; i < ECHOED; i++) content[i] = (uint8_t)(i * 2654435761U >> 24);
    if (connects) begin(THERE, microseconds());
    for (;;) {
        uint8_t packet[PACKET];
        struct pollfd waits = {.fd = device, .events = POLLIN};
        int milliseconds = proceed(microseconds());
        if (connects ? state == LISTEN : ended >= connections) return connects && ended == 0;
        poll(&waits, 1, milliseconds);
        for (int i = 0; i < 64; i++) {
            ssize_t size = read(device, packet, sizeof packet);
            if (size < 0) break;
            if (!is_lost()) take_packet(packet, (size_t)size, microseconds());
        }
    }
}
