/* SPDX-License-Identifier: 0BSD */
/** @file
 * The calls of net_base.h, with structs that remember your buffers. Written by tools/ffi.py.
 *
 *     static struct net_bound_finite_receiver receiver;
 *     static uint8_t storage[64];         // room for the stream's bytes
 *     static struct net_base_run runs[4]; // at most four ranges may wait
 *
 * Once `net_bound_finite_receiver_init(&receiver, storage, 64, runs, 4, 0)` is true, the other
 * calls are passed `&receiver` in place of the buffers. docs/C.md has whole programs.
 *
 * A call `net_bound_..` makes the call `net_base_..`, whose comment in net_base.h also says when it
 * is refused. A refused call changes nothing, and returns a value that says so. That header also
 * explains words such as *run* and *sound*. Times are in microseconds.
 *
 * Each struct has the *head*, which is its numbers, and a pointer to each buffer with its length.
 * Only `.._init` is passed these, so that duty 5 of net_base.h is kept. Call it again to begin
 * anew: all old state is gone. Read fields as you like, but let only these calls write them. If you
 * break duty 6 or 7 with a struct that has pointers, a call may touch any memory.
 *
 * In place of `NET_BASE_NONE` and `UINT64_MAX` these calls return 0. Where a packet is, they write
 * to `place`, and return false if there is none.
 */
#ifndef NET_BOUND_H
#define NET_BOUND_H
#include "net_base.h"

/** @cond */
#if defined __GNUC__ && !defined __clang__
#pragma GCC diagnostic push
#pragma GCC diagnostic ignored "-Wpedantic"
#endif
/* What a call of net_base.h is passed of a struct. Of a null one it is passed a null head, which it refuses. */
#define NET_BOUND_HEAD(it) ((it) ? &(it)->head : NULL)
#define NET_BOUND_CAPACITY(it) ((it) ? (it)->capacity : 0)
#define NET_BOUND_STORAGE(it) ((it) ? (it)->storage : NULL), NET_BOUND_CAPACITY(it)
#define NET_BOUND_RUNS(it) ((it) ? (it)->runs : NULL), ((it) ? (it)->runs_length : 0)
#define NET_BOUND_SLOTS(it) ((it) ? (it)->slots : NULL), ((it) ? (it)->slots_length : 0)
static inline size_t net_bound_or_0(size_t number) {
    return number == NET_BASE_NONE ? 0 : number;
}
/** @endcond */

/** `struct net_base_ring`, and each array that `.._init` was passed, with its length. */
struct net_bound_ring {
    struct net_base_ring head; /**< Its numbers, which only calls write. */
    uint8_t *storage;
    size_t capacity;
};
/** Makes `ring` an empty ring, for a storage of any length. */
static inline void net_bound_ring_init(
    struct net_bound_ring *ring, uint8_t *storage, size_t capacity) {
    net_base_ring_init(NET_BOUND_HEAD(ring));
    if (!ring) return;
    ring->storage = storage; ring->capacity = capacity;
}
/** Returns where at most `size` free elements are, from the one at `offset` on; none if `offset` is
 * past the free elements. */
NET_BASE_MUST_USE static inline struct net_base_span net_bound_ring_unallocated(
    const struct net_bound_ring *ring, size_t offset, size_t size) {
    struct net_base_span found = net_base_ring_unallocated(NET_BOUND_HEAD(ring),
        NET_BOUND_CAPACITY(ring), offset, size);
    found.from = net_bound_or_0(found.from);
    return found;
}
/** Returns where at most `size` elements of the queue are, from the one at `offset` on; none if
 * `offset` is past the queue. */
NET_BASE_MUST_USE static inline struct net_base_span net_bound_ring_allocated(
    const struct net_bound_ring *ring, size_t offset, size_t size) {
    struct net_base_span found = net_base_ring_allocated(NET_BOUND_HEAD(ring),
        NET_BOUND_CAPACITY(ring), offset, size);
    found.from = net_bound_or_0(found.from);
    return found;
}
/** Enqueues `count` elements that you have written to the storage before. */
NET_BASE_MUST_USE static inline bool net_bound_ring_enqueue(
    struct net_bound_ring *ring, size_t count) {
    return net_base_ring_enqueue(NET_BOUND_HEAD(ring), NET_BOUND_CAPACITY(ring), count);
}
/** Dequeues `count` elements. */
NET_BASE_MUST_USE static inline bool net_bound_ring_dequeue(
    struct net_bound_ring *ring, size_t count) {
    return net_base_ring_dequeue(NET_BOUND_HEAD(ring), NET_BOUND_CAPACITY(ring), count);
}
/** Enqueues as many elements of `data` as there is room for, and returns how many. An empty ring
 * first moves its read index to the storage's beginning, even if nothing is enqueued. */
NET_BASE_MUST_USE static inline size_t net_bound_ring_enqueue_slice(
    struct net_bound_ring *ring, const uint8_t *data, size_t data_length) {
    return net_bound_or_0(net_base_ring_enqueue_slice(NET_BOUND_HEAD(ring), NET_BOUND_STORAGE(ring),
        data, data_length));
}
/** Dequeues as many elements as `into` has room for and are queued, copies them to the beginning of
 * `into`, and returns how many. The rest of `into` stays as it is. */
NET_BASE_MUST_USE static inline size_t net_bound_ring_dequeue_slice(
    struct net_bound_ring *ring, uint8_t *into, size_t into_length) {
    return net_bound_or_0(net_base_ring_dequeue_slice(NET_BOUND_HEAD(ring), NET_BOUND_STORAGE(ring),
        into, into_length));
}

/** `struct net_base_packets`, and each array that `.._init` was passed, with its length. */
struct net_bound_packets {
    struct net_base_packets head; /**< Its numbers, which only calls write. */
    uint8_t *storage;
    size_t capacity;
    struct net_base_packet_slot *slots;
    size_t slots_length;
};
/** Makes `packets` a queue with no packets. */
static inline void net_bound_packets_init(
    struct net_bound_packets *packets, uint8_t *storage, size_t capacity,
    struct net_base_packet_slot *slots, size_t slots_length) {
    net_base_packets_init(NET_BOUND_HEAD(packets));
    if (!packets) return;
    packets->storage = storage; packets->capacity = capacity;
    packets->slots = slots; packets->slots_length = slots_length;
}
/** Takes the last `count` bytes off the last packet, lowers the size in its slot, and returns true:
 * for a caller that wrote fewer bytes than it placed. Returns false, and changes nothing, if there
 * is no packet, or it has fewer bytes. */
NET_BASE_MUST_USE static inline bool net_bound_packets_shorten_last(
    struct net_bound_packets *packets, size_t count) {
    return net_base_packets_shorten_last(NET_BOUND_HEAD(packets), NET_BOUND_SLOTS(packets),
        NET_BOUND_CAPACITY(packets), count);
}
/** Appends a packet of `size` bytes, writes its slot and that of its gap, whose `is_gap` is 1, and
 * writes to `place` where they and the packet's bytes are. */
NET_BASE_MUST_USE static inline bool net_bound_packets_enqueue(
    struct net_bound_packets *packets, size_t size, struct net_base_packet_place *place) {
    if (!place) packets = NULL;
    struct net_base_packet_place found = net_base_packets_enqueue(NET_BOUND_HEAD(packets),
        NET_BOUND_SLOTS(packets), NET_BOUND_CAPACITY(packets), size);
    if (found.slot == NET_BASE_NONE) return false;
    *place = found;
    return true;
}
/** Takes the first packet off, and the gap before it, and writes to `place` where it is. */
NET_BASE_MUST_USE static inline bool net_bound_packets_dequeue(
    struct net_bound_packets *packets, struct net_base_first_packet *place) {
    if (!place) packets = NULL;
    struct net_base_first_packet found = net_base_packets_dequeue(NET_BOUND_HEAD(packets),
        NET_BOUND_SLOTS(packets), NET_BOUND_CAPACITY(packets));
    if (found.slot == NET_BASE_NONE) return false;
    *place = found;
    return true;
}
/** Writes to `place` where the first packet is, which stays. */
NET_BASE_MUST_USE static inline bool net_bound_packets_peek(
    const struct net_bound_packets *packets, struct net_base_first_packet *place) {
    if (!place) packets = NULL;
    struct net_base_first_packet found = net_base_packets_peek(NET_BOUND_HEAD(packets),
        NET_BOUND_SLOTS(packets), NET_BOUND_CAPACITY(packets));
    if (found.slot == NET_BASE_NONE) return false;
    *place = found;
    return true;
}

/** `struct net_base_fragments`, and each array that `.._init` was passed, with its length. */
struct net_bound_fragments {
    struct net_base_fragments head; /**< Its numbers, which only calls write. */
    uint8_t *storage;
    size_t capacity;
    struct net_base_run *runs;
    size_t runs_length;
};
/** Makes `fragments` an empty buffer, whose packet is waited for up to `expires_at`, in
 * microseconds. Storage and runs may have any values. */
static inline void net_bound_fragments_init(
    struct net_bound_fragments *fragments, uint8_t *storage, size_t capacity,
    struct net_base_run *runs, size_t runs_length, int64_t expires_at) {
    net_base_fragments_init(NET_BOUND_HEAD(fragments), expires_at);
    if (!fragments) return;
    fragments->storage = storage; fragments->capacity = capacity;
    fragments->runs = runs; fragments->runs_length = runs_length;
}
/** Returns whether head and runs are sound, whatever numbers they have. */
NET_BASE_MUST_USE static inline bool net_bound_fragments_is_sound(
    const struct net_bound_fragments *fragments) {
    return net_base_fragments_is_sound(NET_BOUND_HEAD(fragments), NET_BOUND_CAPACITY(fragments),
        NET_BOUND_RUNS(fragments));
}
/** Sets the packet's size to `size` bytes. Returns `NET_BASE_SIZE_TOO_LONG` if the storage has
 * fewer, or else `NET_BASE_SIZE_OTHER_SIZE` if another size is known, or a byte at `size` or above
 * has arrived; then nothing changes. */
NET_BASE_MUST_USE static inline enum net_base_size_status net_bound_fragments_set_total_size(
    struct net_bound_fragments *fragments, size_t size) {
    return net_base_fragments_set_total_size(NET_BOUND_HEAD(fragments),
        NET_BOUND_CAPACITY(fragments), NET_BOUND_RUNS(fragments), size);
}
/** Adds a fragment, whose first byte is that of the packet at `offset`. Returns
 * `NET_BASE_FRAGMENT_TOO_LONG` if it reaches past the buffer's end, or else
 * `NET_BASE_FRAGMENT_OTHER_SIZE` past a known size, or else `NET_BASE_FRAGMENT_TOO_MANY_RUNS`;
 * then nothing changes. */
NET_BASE_MUST_USE static inline enum net_base_fragment_status net_bound_fragments_add(
    struct net_bound_fragments *fragments, size_t offset, const uint8_t *data, size_t data_length) {
    return net_base_fragments_add(NET_BOUND_HEAD(fragments), NET_BOUND_STORAGE(fragments),
        NET_BOUND_RUNS(fragments), offset, data, data_length);
}
/** Returns whether a byte that arrived differs from that of the fragment whose first byte is that
 * of the packet at `offset`. The fragment need not be within the buffer. */
NET_BASE_MUST_USE static inline bool net_bound_fragments_differs(
    const struct net_bound_fragments *fragments, size_t offset, const uint8_t *data,
    size_t data_length) {
    return net_base_fragments_differs(NET_BOUND_HEAD(fragments), NET_BOUND_STORAGE(fragments),
        NET_BOUND_RUNS(fragments), offset, data, data_length);
}
/** Returns whether the packet's size is known and all its bytes have arrived, and if so writes the
 * size to `size`. Its bytes are the first ones of the storage. */
NET_BASE_MUST_USE static inline bool net_bound_fragments_complete(
    const struct net_bound_fragments *fragments, size_t *size) {
    return net_base_fragments_complete(NET_BOUND_HEAD(fragments), NET_BOUND_CAPACITY(fragments),
        NET_BOUND_RUNS(fragments), size);
}

/** `struct net_base_finite_receiver`, and each array that `.._init` was passed, with its length. */
struct net_bound_finite_receiver {
    struct net_base_finite_receiver head; /**< Its numbers, which only calls write. */
    uint8_t *storage;
    size_t capacity;
    struct net_base_run *runs;
    size_t runs_length;
};
/** Makes `receiver` a receiver of a stream that begins at position `first`; nothing has arrived.
 * Storage and runs may have any values. */
NET_BASE_MUST_USE static inline bool net_bound_finite_receiver_init(
    struct net_bound_finite_receiver *receiver, uint8_t *storage, size_t capacity,
    struct net_base_run *runs, size_t runs_length, uint64_t first) {
    if (!net_base_finite_receiver_init(NET_BOUND_HEAD(receiver), first)) return false;
    receiver->storage = storage; receiver->capacity = capacity;
    receiver->runs = runs; receiver->runs_length = runs_length;
    return true;
}
/** Returns whether head and runs are sound. */
NET_BASE_MUST_USE static inline bool net_bound_finite_receiver_is_sound(
    const struct net_bound_finite_receiver *receiver) {
    return net_base_finite_receiver_is_sound(NET_BOUND_HEAD(receiver), NET_BOUND_CAPACITY(receiver),
        NET_BOUND_RUNS(receiver));
}
/** Returns whether the stream can end at `position`: it is the end that is known, or none is, and
 * it isn't below the first missing position or the end of a waiting range. 2^64 - 1 is no end.
 * `net_bound_finite_receiver_segment` takes an end in order even if this is false. */
NET_BASE_MUST_USE static inline bool net_bound_finite_receiver_can_end(
    const struct net_bound_finite_receiver *receiver, uint64_t position) {
    return net_base_finite_receiver_can_end(NET_BOUND_HEAD(receiver), NET_BOUND_RUNS(receiver),
        position);
}
/** Writes to `number` the number that an acknowledgement carries: the first missing position, or,
 * once all bytes and the end have arrived, the end plus 1, since the end takes a position. */
NET_BASE_MUST_USE static inline bool net_bound_finite_receiver_acknowledged(
    const struct net_bound_finite_receiver *receiver, uint64_t *number) {
    return net_base_finite_receiver_acknowledged(NET_BOUND_HEAD(receiver), number);
}
/** Returns whether all bytes were read, up to the end. Once it is so it stays so. */
NET_BASE_MUST_USE static inline bool net_bound_finite_receiver_has_read_all(
    const struct net_bound_finite_receiver *receiver) {
    return net_base_finite_receiver_has_read_all(NET_BOUND_HEAD(receiver));
}
/** Copies bytes from the beginning of the queue to that of `into`, takes them off the queue, and
 * returns how many: as many as are queued and as `into` has room for. The rest of `into` stays as
 * it is. */
NET_BASE_MUST_USE static inline size_t net_bound_finite_receiver_read(
    struct net_bound_finite_receiver *receiver, uint8_t *into, size_t into_length) {
    return net_bound_or_0(net_base_finite_receiver_read(NET_BOUND_HEAD(receiver),
        NET_BOUND_STORAGE(receiver), into, into_length));
}
/** Takes the first `count` bytes off the queue, as `net_bound_finite_receiver_read` does, and
 * copies none: they were read in place. */
NET_BASE_MUST_USE static inline bool net_bound_finite_receiver_remove(
    struct net_bound_finite_receiver *receiver, size_t count) {
    return net_base_finite_receiver_remove(NET_BOUND_HEAD(receiver), NET_BOUND_CAPACITY(receiver),
        count);
}
/** Keeps the bytes of a segment, the first at `position`, that are in the free window and below the
 * end, and writes to `counts` how many. If it `is_last`, the stream ends after it. While something
 * is missing, a last segment is *in order* if it begins at or below the first missing position,
 * and ends at or above that and within the free window. Its end is always taken: it replaces an
 * end that was known, and drops what waits beyond. For any other last segment this returns
 * `NET_BASE_SEGMENT_OTHER_END` if the stream can't end there, as
 * `net_bound_finite_receiver_can_end` tells. Else it returns `NET_BASE_SEGMENT_TOO_MANY_RUNS` if
 * the segment lacks the next missing byte and would make one waiting range too many. After both
 * nothing has changed. */
NET_BASE_MUST_USE static inline enum net_base_segment_status net_bound_finite_receiver_segment(
    struct net_bound_finite_receiver *receiver, uint64_t position, const uint8_t *bytes,
    size_t bytes_length, bool is_last, struct net_base_kept_counts *counts) {
    return net_base_finite_receiver_segment(NET_BOUND_HEAD(receiver), NET_BOUND_STORAGE(receiver),
        NET_BOUND_RUNS(receiver), position, bytes, bytes_length, is_last, counts);
}
/** Writes the end of the free window to `end`, and returns true. That is the first position that
 * isn't kept, which you may announce. It is never below what
 * `net_bound_finite_receiver_acknowledged` writes. */
NET_BASE_MUST_USE static inline bool net_bound_finite_receiver_window_end(
    const struct net_bound_finite_receiver *receiver, uint64_t *end) {
    return net_base_finite_receiver_window_end(NET_BOUND_HEAD(receiver),
        NET_BOUND_CAPACITY(receiver), end);
}

/** `struct net_base_receiving_end`, and each array that `.._init` was passed, with its length. */
struct net_bound_receiving_end {
    struct net_base_receiving_end head; /**< Its numbers, which only calls write. */
    uint8_t *storage;
    size_t capacity;
};
/** Makes `end` the receiving side of a connection, whose stream begins at position `first`, at
 * which nothing has arrived. The peer's segments have at most `segment_size` bytes, which is the
 * MSS of your SYN. The storage may have any values. */
NET_BASE_MUST_USE static inline bool net_bound_receiving_end_init(
    struct net_bound_receiving_end *end, uint8_t *storage, size_t capacity, uint64_t first,
    uint16_t segment_size) {
    if (!net_base_receiving_end_init(NET_BOUND_HEAD(end), first, segment_size)) return false;
    end->storage = storage; end->capacity = capacity;
    return true;
}
/** Returns whether this head is sound. */
NET_BASE_MUST_USE static inline bool net_bound_receiving_end_is_sound(
    const struct net_bound_receiving_end *end) {
    return net_base_receiving_end_is_sound(NET_BOUND_HEAD(end), NET_BOUND_CAPACITY(end));
}
/** Begins again with a stream that begins at position `first`, and whose windows have this scale.
 * Writes to `window` what a SYN announces, which has no scale, and returns true. Pass the smallest
 * scale for which `capacity >> scale` is at most 65535: a window is announced in whole units of `1
 * << scale`. One above 14 counts as 14. */
NET_BASE_MUST_USE static inline bool net_bound_receiving_end_open(
    struct net_bound_receiving_end *end, uint64_t first, uint8_t scale, uint16_t *window) {
    return net_base_receiving_end_open(NET_BOUND_HEAD(end), NET_BOUND_CAPACITY(end), first, scale,
        window);
}
/** Returns what to do with a segment that arrives after the peer's SYN, in the window that was
 * announced, whatever is free now. It is as RFC 9293, section 3.10.7.4, has it; resets and SYNs
 * are answered as RFC 5961 has it. While your window is shut, acknowledgements are taken all the
 * same, so that two full ends hear of one another. Afterwards `net_bound_sending_end_acknowledged`
 * tests what the segment acknowledges. */
NET_BASE_MUST_USE static inline enum net_base_arrival_status net_bound_receiving_end_classify(
    const struct net_bound_receiving_end *end, const struct net_base_segment *segment) {
    return net_base_receiving_end_classify(NET_BOUND_HEAD(end), NET_BOUND_CAPACITY(end), segment);
}
/** Takes the bytes of a segment, the first at `position`, and the end if it `is_last`, writes to
 * `counts` how many were kept, and returns what `net_bound_finite_receiver_segment` does. An
 * acknowledgement is due for each second segment, and for one out of order, with the end, or not
 * kept. One with neither bytes nor the end changes nothing. */
NET_BASE_MUST_USE static inline enum net_base_segment_status net_bound_receiving_end_arrived(
    struct net_bound_receiving_end *end, uint64_t position, const uint8_t *bytes,
    size_t bytes_length, bool is_last, struct net_base_kept_counts *counts) {
    return net_base_receiving_end_arrived(NET_BOUND_HEAD(end), NET_BOUND_STORAGE(end), position,
        bytes, bytes_length, is_last, counts);
}
/** Makes `net_bound_receiving_end_is_due` true: an acknowledgement is to be sent at once. */
static inline void net_bound_receiving_end_answer(struct net_bound_receiving_end *end) {
    net_base_receiving_end_answer(NET_BOUND_HEAD(end));
}
/** Returns whether an acknowledgement is to be sent at once. */
NET_BASE_MUST_USE static inline bool net_bound_receiving_end_is_due(
    const struct net_bound_receiving_end *end) {
    return net_base_receiving_end_is_due(NET_BOUND_HEAD(end));
}
/** Returns whether an acknowledgement is to be sent within half a second (RFC 9293, 3.8.6.3): a
 * segment waits for one, or an update of the window is worth a segment. It is true too while
 * `net_bound_receiving_end_is_due` is. Once all has arrived, no update is wanted. Ask it before
 * you wait. A segment with bytes that you send in the meantime acknowledges too: ask again before
 * you send one without. */
NET_BASE_MUST_USE static inline bool net_bound_receiving_end_is_wanted(
    const struct net_bound_receiving_end *end) {
    return net_base_receiving_end_is_wanted(NET_BOUND_HEAD(end), NET_BOUND_CAPACITY(end));
}
/** Writes what a segment with bytes of its own tells, and returns true: the first missing position
 * to `next`, and to `window` the window, in units of the scale. Once you have called it, send the
 * segment. An acknowledgement that is due stays due, since this segment lists no ranges. */
NET_BASE_MUST_USE static inline bool net_bound_receiving_end_announce(
    struct net_bound_receiving_end *end, uint64_t *next, uint16_t *window) {
    return net_base_receiving_end_announce(NET_BOUND_HEAD(end), NET_BOUND_CAPACITY(end), next,
        window);
}
/** Writes what a segment without bytes tells, and returns true. Once you have called it, send the
 * segment: what came twice is told once. */
NET_BASE_MUST_USE static inline bool net_bound_receiving_end_acknowledgement(
    struct net_bound_receiving_end *end, struct net_base_acknowledgement *acknowledgement) {
    return net_base_receiving_end_acknowledgement(NET_BOUND_HEAD(end), NET_BOUND_CAPACITY(end),
        acknowledgement);
}
/** Copies bytes from the beginning of the queue to that of `into`, takes them off the queue, and
 * returns how many: as many as are queued and as `into` has room for. The rest of `into` stays as
 * it is. */
NET_BASE_MUST_USE static inline size_t net_bound_receiving_end_read(
    struct net_bound_receiving_end *end, uint8_t *into, size_t into_length) {
    return net_bound_or_0(net_base_receiving_end_read(NET_BOUND_HEAD(end), NET_BOUND_STORAGE(end),
        into, into_length));
}

/** `struct net_base_sending_end`, and each array that `.._init` was passed, with its length. */
struct net_bound_sending_end {
    struct net_base_sending_end head; /**< Its numbers, which only calls write. */
    uint8_t *storage;
    size_t capacity;
};
/** Makes `end` the sending side of a connection, whose stream begins at position `first`, and to
 * which nothing was written. `first_timeout` is the timeout, in microseconds, before any round
 * trip was measured. 0 means 1,000,000, as RFC 6298 (2.1) says. In `bounds` zeros mean what the
 * RFC says, but set `ack_delay`: 200,000 for TCP, or 0 if the peer answers at once. The storage
 * may have any values. */
NET_BASE_MUST_USE static inline bool net_bound_sending_end_init(
    struct net_bound_sending_end *end, uint8_t *storage, size_t capacity, uint64_t first,
    uint64_t first_timeout, const struct net_base_timeout_bounds *bounds) {
    if (!net_base_sending_end_init(NET_BOUND_HEAD(end), first, first_timeout, bounds)) return false;
    end->storage = storage; end->capacity = capacity;
    return true;
}
/** Returns whether the end is sound. */
NET_BASE_MUST_USE static inline bool net_bound_sending_end_is_sound(
    const struct net_bound_sending_end *end) {
    return net_base_sending_end_is_sound(NET_BOUND_HEAD(end), NET_BOUND_CAPACITY(end));
}
/** Begins with a peer, whose SYN announced a window, how many bytes a segment may have, and whether
 * it reports blocks (SACK). Without SACK there is no early loss probe, as the peer couldn't answer
 * it: a lost last segment is sent again when the timer ends. Window probes are sent all the same.
 * `announcement.seq` is the SYN's position, and `announcement.ack` your first position, even if
 * the SYN has no ACK. `segment_size` counts bytes of the stream alone: pass the peer's MSS less
 * the options that each of your segments has (RFC 6691). What was written stays. Call it once,
 * before anything is sent. A second call begins with another peer. */
NET_BASE_MUST_USE static inline bool net_bound_sending_end_open(
    struct net_bound_sending_end *end, const struct net_base_announcement *announcement,
    size_t segment_size, bool reports, int64_t now) {
    return net_base_sending_end_open(NET_BOUND_HEAD(end), NET_BOUND_CAPACITY(end), announcement,
        segment_size, reports, now);
}
/** Returns whether a SYN is to be sent now, the first one or one after a timeout, and starts the
 * timer for the next. Ask it only until your SYN is acknowledged: it doesn't test that. */
NET_BASE_MUST_USE static inline bool net_bound_sending_end_is_opening_due(
    struct net_bound_sending_end *end, int64_t now) {
    return net_base_sending_end_is_opening_due(NET_BOUND_HEAD(end), NET_BOUND_CAPACITY(end), now);
}
/** Enables Nagle's rule (RFC 9293, 3.7.4), or disables it. While something that was sent isn't
 * acknowledged, less than a whole segment waits by it, unless the stream is closed or the timer
 * has ended. It is enabled at first. */
static inline void net_bound_sending_end_set_nagle_enabled(
    struct net_bound_sending_end *end, bool enabled) {
    net_base_sending_end_set_nagle_enabled(NET_BOUND_HEAD(end), enabled);
}
/** Enqueues the first of these bytes, as many as there is room for, and returns how many: none of a
 * stream that is closed. */
NET_BASE_MUST_USE static inline size_t net_bound_sending_end_write(
    struct net_bound_sending_end *end, const uint8_t *bytes, size_t bytes_length) {
    return net_bound_or_0(net_base_sending_end_write(NET_BOUND_HEAD(end), NET_BOUND_STORAGE(end),
        bytes, bytes_length));
}
/** Ends the stream after what was written. A second call changes nothing. */
static inline void net_bound_sending_end_close(struct net_bound_sending_end *end) {
    net_base_sending_end_close(NET_BOUND_HEAD(end));
}
/** Takes what a segment acknowledges and announces, and the blocks that it reports, as positions.
 * Pass `is_empty` if the segment has no byte and no FIN. Blocks of what wasn't sent are ignored. */
NET_BASE_MUST_USE static inline struct net_base_taken_acknowledgement
net_bound_sending_end_acknowledged(
    struct net_bound_sending_end *end, const struct net_base_announcement *announcement,
    const struct net_base_held_run *blocks, size_t blocks_length, bool is_empty, int64_t now) {
    return net_base_sending_end_acknowledged(NET_BOUND_HEAD(end), NET_BOUND_CAPACITY(end),
        announcement, blocks, blocks_length, is_empty, now);
}
/** Returns whether the timer has ended, and what that means. If it has, it starts again, and
 * `net_bound_sending_end_next_segment` says what is then to be sent. */
NET_BASE_MUST_USE static inline struct net_base_ended_timer net_bound_sending_end_expired(
    struct net_bound_sending_end *end, int64_t now) {
    return net_base_sending_end_expired(NET_BOUND_HEAD(end), NET_BOUND_CAPACITY(end), now);
}
/** Returns whether the last recovery was spurious, and ends it then: nothing had been lost, since
 * all that was sent again came twice (RFC 3708), and the rest arrived. Then restore the congestion
 * window of before the recovery. Ask it after each acknowledgement, an old one too. It is true at
 * most once after each sign of congestion: a `begins` that is true, or `NET_BASE_EXPIRED_LOST`. */
NET_BASE_MUST_USE static inline bool net_bound_sending_end_take_back(
    struct net_bound_sending_end *end) {
    return net_base_sending_end_take_back(NET_BOUND_HEAD(end), NET_BOUND_CAPACITY(end));
}
/** Returns the segment that is to be sent now, and counts it as sent: if the peer's window and the
 * congestion window have room for one, or as a window probe or a loss probe. `congestion_window`
 * is how many bytes may be in flight, but one segment may be, however small it is. Less than a
 * whole segment may be held back (RFC 9293, 3.8.6.2.1, and Nagle's rule). */
NET_BASE_MUST_USE static inline struct net_base_outgoing_segment net_bound_sending_end_next_segment(
    struct net_bound_sending_end *end, uint64_t congestion_window, int64_t now) {
    return net_base_sending_end_next_segment(NET_BOUND_HEAD(end), NET_BOUND_CAPACITY(end),
        congestion_window, now);
}
/** Returns where the bytes of a segment from `position` on, and below `limit`, are, in two parts,
 * and whether the stream ends after them. Of a position that is acknowledged there are none. */
NET_BASE_MUST_USE static inline struct net_base_segment_parts net_bound_sending_end_bytes(
    const struct net_bound_sending_end *end, uint64_t position, uint64_t limit) {
    struct net_base_segment_parts found = net_base_sending_end_bytes(NET_BOUND_HEAD(end),
        NET_BOUND_CAPACITY(end), position, limit);
    found.from = net_bound_or_0(found.from);
    return found;
}
/** Returns whether all that was written is acknowledged, and the end. Once it is so it stays so. */
NET_BASE_MUST_USE static inline bool net_bound_sending_end_is_done(
    const struct net_bound_sending_end *end) {
    return net_base_sending_end_is_done(NET_BOUND_HEAD(end));
}
/** Returns whether the timer runs, and if so writes to `moment` when to call
 * `net_bound_sending_end_expired`. */
NET_BASE_MUST_USE static inline bool net_bound_sending_end_expires_at(
    const struct net_bound_sending_end *end, int64_t *moment) {
    return net_base_sending_end_expires_at(NET_BOUND_HEAD(end), moment);
}
/** Returns the position that an empty segment has, as an acknowledgement alone: its sequence
 * number. */
NET_BASE_MUST_USE static inline uint64_t net_bound_sending_end_empty_segment_position(
    const struct net_bound_sending_end *end) {
    uint64_t number = net_base_sending_end_empty_segment_position(NET_BOUND_HEAD(end));
    return number == UINT64_MAX ? 0 : number;
}
/** Returns whether a recovery from a loss is in progress. */
NET_BASE_MUST_USE static inline bool net_bound_sending_end_is_recovering(
    const struct net_bound_sending_end *end) {
    return net_base_sending_end_is_recovering(NET_BOUND_HEAD(end));
}

/* Getters of fields of a head. Of null they return 0 or false. */

/** Returns how many elements are queued. */
NET_BASE_MUST_USE static inline size_t net_bound_ring_length(const struct net_bound_ring *ring) {
    return ring ? ring->head.length : 0;
}
/** Returns how many bytes are queued: those that `net_bound_finite_receiver_read` can copy now. */
NET_BASE_MUST_USE static inline size_t net_bound_finite_receiver_queued(
    const struct net_bound_finite_receiver *receiver) {
    return receiver ? receiver->head.receiver.place.length : 0;
}
/** Returns where at most `size` queued bytes are, from the one at `offset` on, to be read in place:
 * none if `offset` is past the queue. Take them off by `net_bound_finite_receiver_remove`. */
NET_BASE_MUST_USE static inline struct net_base_span net_bound_finite_receiver_allocated(
    const struct net_bound_finite_receiver *receiver, size_t offset, size_t size) {
    struct net_base_span found = net_base_ring_allocated(
        receiver ? &receiver->head.receiver.place : NULL, NET_BOUND_CAPACITY(receiver), offset, size);
    found.from = net_bound_or_0(found.from);
    return found;
}
/** Returns how many bytes are queued: those that `net_bound_receiving_end_read` can copy now. */
NET_BASE_MUST_USE static inline size_t net_bound_receiving_end_queued(
    const struct net_bound_receiving_end *end) {
    return end ? end->head.receiver.receiver.place.length : 0;
}
/** Writes the first missing position to `number`, as `net_bound_finite_receiver_acknowledged` does:
 * it is after the end once all has arrived. */
NET_BASE_MUST_USE static inline bool net_bound_receiving_end_acknowledged(
    const struct net_bound_receiving_end *end, uint64_t *number) {
    return net_base_finite_receiver_acknowledged(end ? &end->head.receiver : NULL, number);
}
/** Returns whether the end of the peer's stream, its FIN, has arrived, and all bytes before it. */
NET_BASE_MUST_USE static inline bool net_bound_receiving_end_is_complete(
    const struct net_bound_receiving_end *end) {
    uint64_t number;
    return net_bound_receiving_end_acknowledged(end, &number)
           && number == end->head.receiver.after_end && number > 0;
}
/** Returns whether the peer's stream has ended, and all its bytes were read: none will follow. */
NET_BASE_MUST_USE static inline bool net_bound_receiving_end_has_read_all(
    const struct net_bound_receiving_end *end) {
    return net_base_finite_receiver_has_read_all(end ? &end->head.receiver : NULL);
}
/** Returns how many bytes `net_bound_sending_end_write` would take now: none once it is closed. */
NET_BASE_MUST_USE static inline size_t net_bound_sending_end_room(
    const struct net_bound_sending_end *end) {
    return end && !end->head.sender.closed ? end->capacity - end->head.sender.sender.place.length
                                           : 0;
}
/** Returns the first position that isn't acknowledged: that of an acknowledgement is near it. */
NET_BASE_MUST_USE static inline uint64_t net_bound_sending_end_first_unacknowledged(
    const struct net_bound_sending_end *end) {
    return end ? end->head.sender.sender.first_unacknowledged + end->head.sender.finished : 0;
}
/** Returns how many positions were sent and aren't acknowledged (FlightSize of RFC 5681). */
NET_BASE_MUST_USE static inline uint64_t net_bound_sending_end_flight_size(
    const struct net_bound_sending_end *end) {
    return end ? end->head.sender.sent - net_bound_sending_end_first_unacknowledged(end) : 0;
}

/** @cond */
#if defined __GNUC__ && !defined __clang__
#pragma GCC diagnostic pop
#endif
/** @endcond */
#endif
