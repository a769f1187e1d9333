/* SPDX-License-Identifier: 0BSD */
/** @file
 * net-base 0.6.0-dev.
 *
 * net_bound.h wraps these calls and remembers your buffers: include that.
 *
 * What for, and which calls
 *
 * - `net_base_ring_`: A queue of bytes or other elements: init, unallocated, allocated, enqueue,
 *   dequeue, enqueue_slice, dequeue_slice.
 * - `net_base_packets_`: Packets in the order of their arrival: init, shorten_last, enqueue,
 *   dequeue, peek.
 * - `net_base_fragments_`: Packets that arrive in fragments, as those of IPv4 do, over bytes and
 *   runs that the caller keeps: init, is_sound, set_total_size, add, differs, complete.
 * - `net_base_parts_sum_`: The Internet checksum of a message in parts, such as a pseudo-header, a
 *   header and data: init, add, checksum.
 * - `net_base_finite_receiver_`: A stream out of segments, for QUIC or a protocol of your own:
 *   init, is_sound, can_end, acknowledged, has_read_all, read, remove, segment, window_end.
 * - `net_base_receiving_end_`: The receiving side of a TCP connection: init, is_sound, open,
 *   classify, arrived, answer, is_due, is_wanted, announce, acknowledgement, read.
 * - `net_base_sending_end_`: The sending side of a TCP connection: init, is_sound, open,
 *   is_opening_due, set_nagle_enabled, write, close, acknowledged, expired, take_back,
 *   next_segment, bytes, is_done, expires_at, empty_segment_position, is_recovering.
 * - `net_base_answer_limit_`: A limit of answers to segments of which nothing is taken (RFC 5961,
 *   section 7): init, allows.
 * - `net_base_sequence_number_`: Sequence numbers of 32 bits, which wrap, and the positions of 64
 *   bits, which don't: position.
 *
 * Functions for C over memory that the caller keeps. There is no heap and no global state. Each
 * call tests what it needs, but for the duties below, and then calls a proved function.
 *
 * Memory
 *
 * - A *head* is a struct of numbers. You keep it beside its memory: a *storage*, which has the
 *   bytes, and for some heads an array of runs or of slots. Its `.._init` makes it, also of one
 *   that was used: then all its old state is gone. One of zeros is new too, as the comment of the
 *   struct says.
 * - A *run* is a range of positions that is stored in one element of such an array. In a receiver
 *   it is a *waiting range*: bytes that have arrived, but wait for earlier ones. It is *held* as
 *   long as they wait.
 * - A *position* is the number of a byte in a stream, with 64 bits, so that it never wraps. The end
 *   of a stream has one too, after the last byte.
 * - A *place* is a ring's head: where a queue is in its storage.
 *
 * Lengths are in elements. A length of 0 is allowed: without runs no range may wait. A length, an
 * index or a count is a `size_t` on every processor, a position is a `uint64_t`, and a moment an
 * `int64_t`. Times are in microseconds. A flag of a slot is as wide as the number beside it; others
 * are a `bool`.
 *
 * You may read the fields of a head: `length` is how many elements are queued, and `used` how many
 * runs are stored. `start` and `end` of a stored run are offsets from `first_start` of the head, so
 * the first run starts at 0. A block of an acknowledgement has positions of the stream.
 *
 * Duties
 *
 * Calls don't test these, but for some in a build with the feature `check`. A call that breaks one
 * of the first four can touch any memory. The others are about answers, and the proofs assume them:
 * a call that breaks one touches no other memory than it was passed, but it may answer anything, or
 * trap.
 *
 * 1. A pointer that isn't null is aligned and valid. That of an array, such as `data`, is valid for
 *    as many elements as the parameter after it says, here `data_length`, which have at most
 *    `PTRDIFF_MAX` bytes together. Any other is valid for one value. If the length is 0, the
 *    pointer may be any. A `bool` outside of a struct is 0 or 1. What is read has values; memory
 *    that a call writes first needs none: a head at its `.._init`, a storage, runs and slots,
 *    `into` of a read, and results such as `counts`. Only if the linker optimizes C and Rust
 *    together (LTO of both), give these any values too, since Rust wants values behind a reference.
 * 2. What a call may write overlaps nothing else that it is passed.
 * 3. Two calls that share memory aren't made at once, by threads or by an interrupt and what it
 *    interrupts, unless both take it by `const`. So let one task own a head, and make all calls on
 *    it. If several do, hold a mutex around each call, and around what reads fields. Only if an
 *    interrupt calls too, mask it there. Bytes that you copy yourself need neither, if one side
 *    alone writes and one alone reads: see `struct net_base_ring`.
 * 4. There is enough stack for a call.
 * 5. A storage, its runs and its slots have the same lengths in each call on a head.
 * 6. A head, its runs and its slots are written by calls of its own kind alone. For a finite
 *    receiver these are `net_base_finite_receiver_..`, and its `place` isn't written by
 *    `net_base_ring_..`. You may set a head to zeros. A call that is stopped midway, as when its
 *    task is deleted, leaves a head half changed: make it anew by `.._init`.
 * 7. Call a head's `.._init` before its other calls, or set it to zeros. With duties 5 and 6 it
 *    then is *sound*: head and runs are such as calls of its kind leave. A comment that says
 *    `Requires` needs that, and a call whose name ends in `_is_sound` tests it, for a head that
 *    anything else may have written.
 *
 * Refusals
 *
 * All else that a call needs, it tests. A call *is refused* if an argument is nonsense: a null
 * pointer, but to an array of length 0; a struct with a `bool` that is neither 0 nor 1; or what the
 * comment of the call names. A refused call changes nothing, and returns by its type:
 *
 * - `bool`: `false`, but `net_base_fragments_differs`: `true`, as of a packet that isn't to be
 *   trusted
 * - a status: its `NET_BASE_.._REFUSED`, which is never returned for anything else
 * - `size_t`: `NET_BASE_NONE`
 * - `uint64_t`: `UINT64_MAX`
 * - `uint16_t`: 0
 * - a struct: the same in its first field, and in the others what the comment of the call says
 * - `void`: nothing
 *
 * `false`, `NET_BASE_NONE` and 0 can also be the result of a call that is done. A call that returns
 * a `bool`, and whose comment asks no question, returns `true` if it is done. A status is 0 if the
 * call is done, as in other libraries of C; only `enum net_base_arrival_status`, which says what to
 * do with a segment, has no 0.
 *
 * What C writes itself
 *
 * There is no export for these:
 *
 * - moments and lengths of time: `+`, `-`, `<` on `int64_t` and `uint64_t`, and
 *   `__builtin_add_overflow` where a sum may not fit. A moment is later than an earlier one by
 *   `(uint64_t)later - (uint64_t)earlier`
 * - sequence numbers: they are added and subtracted as `uint32_t`, and one is later if
 *   `(int32_t)(later - number) > 0`
 * - the bytes of a span: `contiguous` from `from` on, and the rest from 0 on. `if (!ring.length)
 *   net_base_ring_init(&ring)` has all free elements contiguous
 * - waiting range k, of `held.used`: it begins `held.first_start + runs[k].start` above the first
 *   missing position
 * - the window of a header: `(uint64_t)window << scale`, and of a SYN without `scale`, which is at
 *   most 14; the smallest one for a storage: `while (capacity >> scale > 65535 && scale < 14)
 *   scale++`
 * - the payload of each fragment but the last: `(mtu - header) & ~7`; whether a packet has waited
 *   too long: `fragments.expires_at < now`; whether a sum with its checksum is right:
 *   `net_base_parts_sum_checksum` is 0
 *
 * Traps
 *
 * If you keep the duties, no call panics. If a call that breaks duty 5, 6 or 7 would, the program
 * stops: at `ud2` on x86 (exception 6), `udf` on ARM (the UsageFault of a Cortex-M, the HardFault
 * where that isn't enabled and on M0, else an undefined instruction), `unimp` on RISC-V (exception
 * 2), elsewhere in an endless loop. Under Linux that is SIGILL. The library prints nothing, and has
 * no symbol to hook. While the duties are kept, each sum is proved to fit its type; otherwise one
 * may wrap.
 */
#ifndef NET_BASE_H
#define NET_BASE_H
#include <stdbool.h>
#include <stddef.h>
#include <stdint.h>

/** The major number: until 1.0 names and structs may change with each minor one. */
#define NET_BASE_VERSION_MAJOR 0
/** The minor number: until 1.0 names and structs may change with each minor one. */
#define NET_BASE_VERSION_MINOR 6
/** The patch number: until 1.0 names and structs may change with each minor one. */
#define NET_BASE_VERSION_PATCH 0

/** The number of this interface. It is in the name that each function is linked by, so that no
 * library of another version links or loads.
 */
#define NET_BASE_INTERFACE 8
/** @cond */
#ifdef NET_BASE_PLAIN_NAMES /* without the number, as in a library of another maker */
#define NET_BASE_LINK(name)
#elif !defined __GNUC__
#define net_base_ring_init net_base_8_ring_init
#define net_base_ring_unallocated net_base_8_ring_unallocated
#define net_base_ring_allocated net_base_8_ring_allocated
#define net_base_ring_enqueue net_base_8_ring_enqueue
#define net_base_ring_dequeue net_base_8_ring_dequeue
#define net_base_ring_enqueue_slice net_base_8_ring_enqueue_slice
#define net_base_ring_dequeue_slice net_base_8_ring_dequeue_slice
#define net_base_packets_init net_base_8_packets_init
#define net_base_packets_shorten_last net_base_8_packets_shorten_last
#define net_base_packets_enqueue net_base_8_packets_enqueue
#define net_base_packets_dequeue net_base_8_packets_dequeue
#define net_base_packets_peek net_base_8_packets_peek
#define net_base_fragments_init net_base_8_fragments_init
#define net_base_fragments_is_sound net_base_8_fragments_is_sound
#define net_base_fragments_set_total_size net_base_8_fragments_set_total_size
#define net_base_fragments_add net_base_8_fragments_add
#define net_base_fragments_differs net_base_8_fragments_differs
#define net_base_fragments_complete net_base_8_fragments_complete
#define net_base_parts_sum_init net_base_8_parts_sum_init
#define net_base_parts_sum_add net_base_8_parts_sum_add
#define net_base_parts_sum_checksum net_base_8_parts_sum_checksum
#define net_base_finite_receiver_init net_base_8_finite_receiver_init
#define net_base_finite_receiver_is_sound net_base_8_finite_receiver_is_sound
#define net_base_finite_receiver_can_end net_base_8_finite_receiver_can_end
#define net_base_finite_receiver_acknowledged net_base_8_finite_receiver_acknowledged
#define net_base_finite_receiver_has_read_all net_base_8_finite_receiver_has_read_all
#define net_base_finite_receiver_read net_base_8_finite_receiver_read
#define net_base_finite_receiver_remove net_base_8_finite_receiver_remove
#define net_base_finite_receiver_segment net_base_8_finite_receiver_segment
#define net_base_finite_receiver_window_end net_base_8_finite_receiver_window_end
#define net_base_receiving_end_init net_base_8_receiving_end_init
#define net_base_receiving_end_is_sound net_base_8_receiving_end_is_sound
#define net_base_receiving_end_open net_base_8_receiving_end_open
#define net_base_receiving_end_classify net_base_8_receiving_end_classify
#define net_base_receiving_end_arrived net_base_8_receiving_end_arrived
#define net_base_receiving_end_answer net_base_8_receiving_end_answer
#define net_base_receiving_end_is_due net_base_8_receiving_end_is_due
#define net_base_receiving_end_is_wanted net_base_8_receiving_end_is_wanted
#define net_base_receiving_end_announce net_base_8_receiving_end_announce
#define net_base_receiving_end_acknowledgement net_base_8_receiving_end_acknowledgement
#define net_base_receiving_end_read net_base_8_receiving_end_read
#define net_base_sending_end_init net_base_8_sending_end_init
#define net_base_sending_end_is_sound net_base_8_sending_end_is_sound
#define net_base_sending_end_open net_base_8_sending_end_open
#define net_base_sending_end_is_opening_due net_base_8_sending_end_is_opening_due
#define net_base_sending_end_set_nagle_enabled net_base_8_sending_end_set_nagle_enabled
#define net_base_sending_end_write net_base_8_sending_end_write
#define net_base_sending_end_close net_base_8_sending_end_close
#define net_base_sending_end_acknowledged net_base_8_sending_end_acknowledged
#define net_base_sending_end_expired net_base_8_sending_end_expired
#define net_base_sending_end_take_back net_base_8_sending_end_take_back
#define net_base_sending_end_next_segment net_base_8_sending_end_next_segment
#define net_base_sending_end_bytes net_base_8_sending_end_bytes
#define net_base_sending_end_is_done net_base_8_sending_end_is_done
#define net_base_sending_end_expires_at net_base_8_sending_end_expires_at
#define net_base_sending_end_empty_segment_position net_base_8_sending_end_empty_segment_position
#define net_base_sending_end_is_recovering net_base_8_sending_end_is_recovering
#define net_base_answer_limit_init net_base_8_answer_limit_init
#define net_base_answer_limit_allows net_base_8_answer_limit_allows
#define net_base_sequence_number_position net_base_8_sequence_number_position
#define NET_BASE_LINK(name)
#else
#define NET_BASE_TEXT(text) #text
#define NET_BASE_LABEL(before, name) __asm__(NET_BASE_TEXT(before) name)
#define NET_BASE_LINK(name) NET_BASE_LABEL(__USER_LABEL_PREFIX__, "net_base_8_" #name)
#endif
/** @endcond */

/** What is returned isn't to be thrown away, unless `(void)` is written before the call. GCC before
 * version 11 takes no `(void)`, but `if (call) {}`. */
#if defined __cplusplus && __cplusplus >= 201703L || defined __STDC_VERSION__ && __STDC_VERSION__ >= 202311L
#define NET_BASE_MUST_USE [[nodiscard]]
#elif defined __GNUC__ && __GNUC__ >= 11 && !defined __clang__ && !defined __cplusplus
#define NET_BASE_MUST_USE [[nodiscard]]
#elif defined __GNUC__
#define NET_BASE_MUST_USE __attribute__((warn_unused_result))
#else
#define NET_BASE_MUST_USE
#endif
/** @cond */
/* Each enum has 32 bits, also where a compiler makes it as short as its numbers. */
#ifdef __GNUC__
#define NET_BASE_32_BITS __attribute__((mode(SI)))
#define NET_BASE_WIDEST(name)
#else
#define NET_BASE_32_BITS
#define NET_BASE_WIDEST(name) NET_BASE_##name##_WIDEST = INT32_MAX
#endif
/* What a call may write overlaps nothing else that it is passed. */
#ifdef __GNUC__
#define NET_BASE_RESTRICT __restrict
#elif defined __cplusplus
#define NET_BASE_RESTRICT
#else
#define NET_BASE_RESTRICT restrict
#endif
/** @endcond */

#ifdef __cplusplus
extern "C" {
#endif
/** @cond */
#if defined __GNUC__ && !defined __clang__
#pragma GCC diagnostic push
#pragma GCC diagnostic ignored "-Wpedantic"
#endif
/** @endcond */

/* Written by tools/ffi.py, up to the line END. */

/** @defgroup net_base_refusals What calls answer
 *
 * What calls answer: a status, or a number in place of one.
 *
 * @{ */

/** What became of a fragment: `DONE`, `TOO_MANY_RUNS`, `TOO_LONG`, `OTHER_SIZE` or `REFUSED`. */
enum NET_BASE_32_BITS net_base_fragment_status {
    NET_BASE_FRAGMENT_DONE = 0, /**< The call was done. */
    /** There would be more runs than the array has elements. Nothing changes. */
    NET_BASE_FRAGMENT_TOO_MANY_RUNS = 1,
    /** The fragment or the size reaches past the end of the buffer. Nothing changes. */
    NET_BASE_FRAGMENT_TOO_LONG = 3,
    /** It contradicts the packet's size: another size is known, or a byte at that size or above has
     * arrived, or the fragment reaches past a known size. Nothing changes. */
    NET_BASE_FRAGMENT_OTHER_SIZE = 4,
    NET_BASE_FRAGMENT_REFUSED = 2, /**< What was passed is nonsense. Nothing changes. */
    NET_BASE_WIDEST(FRAGMENT)
};

/** What became of the size of a packet: `DONE`, `TOO_LONG`, `OTHER_SIZE` or `REFUSED`. */
enum NET_BASE_32_BITS net_base_size_status {
    NET_BASE_SIZE_DONE = 0, /**< The call was done. */
    /** The fragment or the size reaches past the end of the buffer. Nothing changes. */
    NET_BASE_SIZE_TOO_LONG = 3,
    /** It contradicts the packet's size: another size is known, or a byte at that size or above has
     * arrived, or the fragment reaches past a known size. Nothing changes. */
    NET_BASE_SIZE_OTHER_SIZE = 4,
    NET_BASE_SIZE_REFUSED = 2, /**< What was passed is nonsense. Nothing changes. */
    NET_BASE_WIDEST(SIZE)
};

/** What became of a segment: `DONE`, `TOO_MANY_RUNS`, `OTHER_END` or `REFUSED`. */
enum NET_BASE_32_BITS net_base_segment_status {
    NET_BASE_SEGMENT_DONE = 0, /**< The call was done. */
    /** More ranges would wait than there is room for. Nothing of it is kept: the peer has to send
     * it again. */
    NET_BASE_SEGMENT_TOO_MANY_RUNS = 1,
    /** It says that the stream ends where it can't, and isn't in order. Nothing of it is kept. */
    NET_BASE_SEGMENT_OTHER_END = 5,
    NET_BASE_SEGMENT_REFUSED = 2, /**< What was passed is nonsense. Nothing changes. */
    NET_BASE_WIDEST(SEGMENT)
};

/** What to do with a segment that arrives: `TAKE`, `ACKNOWLEDGEMENT_ONLY`, `ANSWER`, `IGNORE`,
 * `RESET`; `REFUSED` for null alone. */
enum NET_BASE_32_BITS net_base_arrival_status {
    /** Take what a segment acknowledges, its window, its bytes and its end. */
    NET_BASE_ARRIVAL_TAKE = 6,
    /** Take what a segment acknowledges and its window, but not its bytes, and answer it: your
     * window is shut, and the peer asks whether it has opened; or the segment is empty and below
     * the window, as an old acknowledgement or a keep-alive. */
    NET_BASE_ARRIVAL_ACKNOWLEDGEMENT_ONLY = 7,
    /** Send an acknowledgement, and take nothing of a segment. If it has neither SYN nor RST, and
     * all its bytes are below the first missing position, also pass these to
     * `net_base_receiving_end_arrived`, before or after `net_base_receiving_end_answer`: it keeps
     * none, but the acknowledgement that follows reports what came twice (RFC 2883). */
    NET_BASE_ARRIVAL_ANSWER = 8,
    NET_BASE_ARRIVAL_IGNORE = 9, /**< Take nothing of a segment, and send nothing. */
    NET_BASE_ARRIVAL_RESET = 10, /**< The peer has reset the connection. */
    NET_BASE_ARRIVAL_REFUSED = 2, /**< What was passed is nonsense. Nothing changes. */
    NET_BASE_WIDEST(ARRIVAL)
};

/** What became of an acknowledgement: `DONE`, `OLD`, `ANSWER` or `REFUSED`. */
enum NET_BASE_32_BITS net_base_acknowledged_status {
    NET_BASE_ACKNOWLEDGED_DONE = 0, /**< It was taken. */
    /** An old acknowledgement: of it only a first block that says what came twice counts, and
     * nothing else changes. Then `net_base_sending_end_take_back` may be true. The bytes of its
     * segment may be new. */
    NET_BASE_ACKNOWLEDGED_OLD = 15,
    /** No peer sends it. Answer its segment, and take nothing of that (RFC 5961, section 5).
     * Nothing changes. */
    NET_BASE_ACKNOWLEDGED_ANSWER = 8,
    NET_BASE_ACKNOWLEDGED_REFUSED = 2, /**< What was passed is nonsense. Nothing changes. */
    NET_BASE_WIDEST(ACKNOWLEDGED)
};

/** What the timer's end means: `DONE`, `OVERDUE`, `PROBE`, `LOST` or `REFUSED`. */
enum NET_BASE_32_BITS net_base_expired_status {
    /** The timer hasn't ended, or a loss probe is due that the peer couldn't answer, since it
     * reports nothing. */
    NET_BASE_EXPIRED_DONE = 0,
    /** No answer has come in time. What is late counts as lost, and
     * `net_base_sending_end_next_segment` sends it again. If it has none to send, it sends a loss
     * probe (RFC 8985, 7.3): a segment that asks for an answer. */
    NET_BASE_EXPIRED_OVERDUE = 13,
    /** The next segment is a window probe, which asks whether the peer's shut window has opened;
     * or, with nothing in flight, it has what was held back. That is no sign of congestion: leave
     * the congestion window as it is. */
    NET_BASE_EXPIRED_PROBE = 11,
    /** All that was sent is lost: let one segment be in flight. `net_base_sending_end_take_back`
     * may undo that, as it does a halving. */
    NET_BASE_EXPIRED_LOST = 14,
    NET_BASE_EXPIRED_REFUSED = 2, /**< What was passed is nonsense. Nothing changes. */
    NET_BASE_WIDEST(EXPIRED)
};

/** Whether a segment is to be sent: `DONE`, `NOTHING` or `REFUSED`. */
enum NET_BASE_32_BITS net_base_outgoing_status {
    NET_BASE_OUTGOING_DONE = 0, /**< One is. */
    NET_BASE_OUTGOING_NOTHING = 16, /**< Nothing is to be sent now. */
    NET_BASE_OUTGOING_REFUSED = 2, /**< What was passed is nonsense. Nothing changes. */
    NET_BASE_WIDEST(OUTGOING)
};

/** In place of a length, an index or a count: what was passed is nonsense, or there is none. */
#define NET_BASE_NONE SIZE_MAX

/** @} */

/** @defgroup net_base_ring A queue of bytes or other elements
 *
 * A queue of bytes or other elements: where they are in a storage that the caller keeps.
 *
 * @{ */

/** The head of a ring: its numbers without its storage.
 *
 * A head of zeros is new. If the elements aren't bytes, pass only the capacity: the call returns
 * indices, and you copy.
 *
 * The elements that a call found stay where they are. Queued ones do until they are dequeued,
 * whatever is enqueued. Free ones do until they are enqueued, whatever is dequeued; but
 * `enqueue_slice` writes free elements, and if the queue is empty it moves them to the storage's
 * beginning. So to fill the storage by DMA, ask `unallocated`, start the DMA there, and `enqueue`
 * as many elements once it has ended. Until then call neither `enqueue_slice` nor `init`; all
 * others may be called. No lock is needed while the DMA runs: duty 3 is about the calls alone. The
 * same is true of elements that you copy yourself. One writer fills at a time, since `unallocated`
 * finds the same elements until they are enqueued.
 *
 * A call is refused if the head doesn't fit the capacity. An empty queue may begin at any index;
 * `read_at` is 0 if the capacity is. A call that takes the last element off leaves `read_at` after
 * it, and doesn't go back to 0. In a span of no elements `from` is where the first would be. */
struct net_base_ring {
    size_t read_at; /**< The index of the first element of the queue, 0 if the storage is empty. */
    size_t length; /**< How many elements are queued. */
};

/** A range of a ring: `contiguous` elements from the index `from` on, and the rest of `count` from
 * index 0 on. */
struct net_base_span {
    size_t from; /**< The index of the first one. */
    size_t count; /**< How many there are. */
    size_t contiguous; /**< How many of them are contiguous, from the first one on. */
};

/** Makes `ring` the head of an empty ring, for a storage of any length. */
void net_base_ring_init(struct net_base_ring *ring) NET_BASE_LINK(ring_init);

/** Returns where at most `size` free elements are, from the one at `offset` on; none if `offset` is
 * past the free elements.
 *
 * It is refused if `ring` isn't the head of a ring of `capacity` elements: `from` is
 * `NET_BASE_NONE`, `count` and `contiguous` are 0. */
NET_BASE_MUST_USE struct net_base_span net_base_ring_unallocated(
    const struct net_base_ring *ring, size_t capacity, size_t offset, size_t size)
    NET_BASE_LINK(ring_unallocated);

/** Returns where at most `size` elements of the queue are, from the one at `offset` on; none if
 * `offset` is past the queue.
 *
 * It is refused if `ring` isn't the head of a ring of `capacity` elements: `from` is
 * `NET_BASE_NONE`, `count` and `contiguous` are 0. */
NET_BASE_MUST_USE struct net_base_span net_base_ring_allocated(
    const struct net_base_ring *ring, size_t capacity, size_t offset, size_t size)
    NET_BASE_LINK(ring_allocated);

/** Enqueues `count` elements that you have written to the storage before.
 *
 * It is refused if `ring` isn't the head of a ring of `capacity` elements, or if fewer than
 * `count` elements are free: false, and nothing changes. */
NET_BASE_MUST_USE bool net_base_ring_enqueue(
    struct net_base_ring *ring, size_t capacity, size_t count) NET_BASE_LINK(ring_enqueue);

/** Dequeues `count` elements.
 *
 * It is refused if `ring` isn't the head of a ring of `capacity` elements, or if fewer than
 * `count` elements are queued: false, and nothing changes. */
NET_BASE_MUST_USE bool net_base_ring_dequeue(
    struct net_base_ring *ring, size_t capacity, size_t count) NET_BASE_LINK(ring_dequeue);

/** Enqueues as many elements of `data` as there is room for, and returns how many. An empty ring
 * first moves its read index to the storage's beginning, even if nothing is enqueued.
 *
 * It is refused if `ring` isn't the head of a ring of `storage_length` elements: `NET_BASE_NONE`,
 * and nothing changes. */
NET_BASE_MUST_USE size_t net_base_ring_enqueue_slice(
    struct net_base_ring *NET_BASE_RESTRICT ring, uint8_t *NET_BASE_RESTRICT storage,
    size_t storage_length, const uint8_t *NET_BASE_RESTRICT data, size_t data_length)
    NET_BASE_LINK(ring_enqueue_slice);

/** Dequeues as many elements as `into` has room for and are queued, copies them to the beginning of
 * `into`, and returns how many. The rest of `into` stays as it is.
 *
 * It is refused if `ring` isn't the head of a ring of `storage_length` elements: `NET_BASE_NONE`,
 * and nothing changes. */
NET_BASE_MUST_USE size_t net_base_ring_dequeue_slice(
    struct net_base_ring *NET_BASE_RESTRICT ring, const uint8_t *NET_BASE_RESTRICT storage,
    size_t storage_length, uint8_t *NET_BASE_RESTRICT into, size_t into_length)
    NET_BASE_LINK(ring_dequeue_slice);

/** @} */

/** @defgroup net_base_packets Packets in the order of their arrival
 *
 * Packets in the order of their arrival: where each has its slots and its bytes.
 *
 * @{ */

/** The head of a packet queue: the heads of its two rings.
 *
 * A head of zeros is new. A packet's bytes are contiguous. If it doesn't fit before the storage's
 * end, it is placed at its beginning, and the bytes before the end are a *gap*. A packet uses one
 * slot, and a gap before it one more: have a slot more than packets. Calls write the slots. What
 * you know of a packet besides, such as its address, keep in an array of your own, of as many
 * elements as there are slots, at the index `slot` that the call returned. */
struct net_base_packets {
    struct net_base_ring slots; /**< The head of the ring of slots. */
    struct net_base_ring bytes; /**< The head of the ring of bytes. */
};

/** A slot of a packet queue without its header: that of a packet, or of the gap before one. */
struct net_base_packet_slot {
    size_t size; /**< How many bytes the packet or the gap has. */
    size_t is_gap; /**< 0 if the slot is a packet's. Any other number says that it is a gap's. */
};

/** Where a packet was placed. */
struct net_base_packet_place {
    /** How many bytes are skipped before the packet: 0, or those up to the storage's end. */
    size_t gap;
    /** The index of the slot of the gap. If the gap has 0 bytes, it has no slot, and this is
     * `slot`. */
    size_t gap_slot;
    size_t slot; /**< The index of the packet's slot. */
    size_t from; /**< The index of the packet's first byte. */
};

/** Where the first packet is. */
struct net_base_first_packet {
    size_t gap; /**< How many bytes are skipped before the packet. */
    size_t slot; /**< The index of the packet's slot. */
    size_t from; /**< The index of the packet's first byte. */
    size_t size; /**< How many bytes the packet has. */
};

/** Makes `packets` the head of a queue with no packets. */
void net_base_packets_init(struct net_base_packets *packets) NET_BASE_LINK(packets_init);

/** Takes the last `count` bytes off the last packet, lowers the size in its slot, and returns true:
 * for a caller that wrote fewer bytes than it placed. Returns false, and changes nothing, if there
 * is no packet, or it has fewer bytes.
 *
 * It is refused if the numbers of `packets` aren't those of rings of `slots_length` slots and of
 * `capacity` bytes: false, and nothing changes. */
NET_BASE_MUST_USE bool net_base_packets_shorten_last(
    struct net_base_packets *NET_BASE_RESTRICT packets,
    struct net_base_packet_slot *NET_BASE_RESTRICT slots, size_t slots_length, size_t capacity,
    size_t count) NET_BASE_LINK(packets_shorten_last);

/** Appends a packet of `size` bytes, writes its slot and that of its gap, whose `is_gap` is 1, and
 * returns where they and the packet's bytes are: at the storage's beginning if no byte is in use.
 *
 * If there are no `size` contiguous free bytes, or no slots for packet and gap, `gap` is 0, the
 * others are `NET_BASE_NONE`. A head that isn't that of the slots and of `capacity` bytes is
 * refused: then all four are `NET_BASE_NONE`. */
NET_BASE_MUST_USE struct net_base_packet_place net_base_packets_enqueue(
    struct net_base_packets *NET_BASE_RESTRICT packets,
    struct net_base_packet_slot *NET_BASE_RESTRICT slots, size_t slots_length, size_t capacity,
    size_t size) NET_BASE_LINK(packets_enqueue);

/** Takes the first packet off, and the gap before it, and returns where it is. Its bytes stay until
 * another packet is placed there.
 *
 * If there is none, `gap` and `size` are 0, the others `NET_BASE_NONE`. A head or a first slot
 * that calls of this kind didn't write is refused: then `gap` is `NET_BASE_NONE` too. In both
 * cases nothing changes. */
NET_BASE_MUST_USE struct net_base_first_packet net_base_packets_dequeue(
    struct net_base_packets *NET_BASE_RESTRICT packets,
    const struct net_base_packet_slot *NET_BASE_RESTRICT slots, size_t slots_length,
    size_t capacity) NET_BASE_LINK(packets_dequeue);

/** Returns where the first packet is, which stays; otherwise what `net_base_packets_dequeue`
 * returns. */
NET_BASE_MUST_USE struct net_base_first_packet net_base_packets_peek(
    const struct net_base_packets *packets, const struct net_base_packet_slot *slots,
    size_t slots_length, size_t capacity) NET_BASE_LINK(packets_peek);

/** @} */

/** @defgroup net_base_fragments Packets that arrive in fragments, as those of IPv4 do, over bytes
 * and runs that the caller keeps
 *
 * Packets that arrive in fragments, as those of IPv4 do, over bytes and runs that the caller
 * keeps.
 *
 * @{ */

/** What an assembler has besides its runs: how many there are, and where the first of them starts.
 */
struct net_base_assembler {
    size_t used; /**< How many runs are stored. */
    /** The position at which the first run starts. Where there is none it has no meaning. */
    size_t first_start;
};

/** What a buffer of fragments has besides its bytes and runs.
 *
 * A head of zeros is that of an empty buffer, whose packet is waited for up to moment 0. The
 * longest packet has as many bytes as the storage. Fragments may overlap: at each position the
 * byte is that of the last fragment there. `present` has the runs of what has arrived. */
struct net_base_fragments {
    struct net_base_assembler present; /**< The positions that arrived: the head of an assembler. */
    bool has_total; /**< Whether the packet's size is known. */
    size_t total; /**< The packet's size in bytes, once it is known. */
    int64_t expires_at; /**< The last moment at which the packet is waited for, in microseconds. */
};

/** A range of positions that is stored as a run: from `start` on, up to `end`, which is not
 * included. */
struct net_base_run {
    size_t start; /**< The first position. */
    size_t end; /**< The position after the last one. */
};

/** Makes `fragments` the head of an empty buffer, whose packet is waited for up to `expires_at`, in
 * microseconds. Storage and runs may have any values. */
void net_base_fragments_init(
    struct net_base_fragments *fragments, int64_t expires_at) NET_BASE_LINK(fragments_init);

/** Returns whether head and runs are sound over a storage of `capacity` bytes, whatever numbers
 * they have: the runs rise without touching, end at `capacity` or below, and at a known size or
 * below, which is at most `capacity`. It looks at each used run. */
NET_BASE_MUST_USE bool net_base_fragments_is_sound(
    const struct net_base_fragments *fragments, size_t capacity, const struct net_base_run *runs,
    size_t runs_length) NET_BASE_LINK(fragments_is_sound);

/** Sets the packet's size to `size` bytes. `capacity` is how many bytes the storage has. Returns
 * `NET_BASE_SIZE_TOO_LONG` if the storage has fewer, or else `NET_BASE_SIZE_OTHER_SIZE` if another
 * size is known, or a byte at `size` or above has arrived; then nothing changes.
 *
 * It is refused if `present.used` is above `runs_length`: `NET_BASE_SIZE_REFUSED`, and nothing
 * changes. Requires: head and runs are sound, as `net_base_fragments_is_sound` tests. */
NET_BASE_MUST_USE enum net_base_size_status net_base_fragments_set_total_size(
    struct net_base_fragments *NET_BASE_RESTRICT fragments, size_t capacity,
    const struct net_base_run *NET_BASE_RESTRICT runs, size_t runs_length, size_t size)
    NET_BASE_LINK(fragments_set_total_size);

/** Adds a fragment, whose first byte is that of the packet at `offset`. Returns
 * `NET_BASE_FRAGMENT_TOO_LONG` if it reaches past the buffer's end, or else
 * `NET_BASE_FRAGMENT_OTHER_SIZE` past a known size, or else `NET_BASE_FRAGMENT_TOO_MANY_RUNS`;
 * then nothing changes. It is refused if `present.used` is above `runs_length`, or a known size
 * above `storage_length`: `NET_BASE_FRAGMENT_REFUSED`, and nothing changes. Requires: head and
 * runs are sound, as `net_base_fragments_is_sound` tests. */
NET_BASE_MUST_USE enum net_base_fragment_status net_base_fragments_add(
    struct net_base_fragments *NET_BASE_RESTRICT fragments, uint8_t *NET_BASE_RESTRICT storage,
    size_t storage_length, struct net_base_run *NET_BASE_RESTRICT runs, size_t runs_length,
    size_t offset, const uint8_t *NET_BASE_RESTRICT data, size_t data_length)
    NET_BASE_LINK(fragments_add);

/** Returns whether a byte that arrived differs from that of the fragment whose first byte is that
 * of the packet at `offset`. The fragment need not be within the buffer.
 *
 * It is refused if `present.used` is above `runs_length`, or a known size above `storage_length`:
 * true, as of a packet that isn't to be trusted. Requires: head and runs are sound, as
 * `net_base_fragments_is_sound` tests. */
NET_BASE_MUST_USE bool net_base_fragments_differs(
    const struct net_base_fragments *fragments, const uint8_t *storage, size_t storage_length,
    const struct net_base_run *runs, size_t runs_length, size_t offset, const uint8_t *data,
    size_t data_length) NET_BASE_LINK(fragments_differs);

/** Returns whether the packet's size is known and all its bytes have arrived, and if so writes the
 * size to `size`. Its bytes are the first ones of the storage, which has `capacity` bytes.
 *
 * It is refused if `present.used` is above `runs_length` or a known size above `capacity`: false,
 * and nothing changes. Requires: head and runs are sound, as `net_base_fragments_is_sound` tests.
 */
NET_BASE_MUST_USE bool net_base_fragments_complete(
    const struct net_base_fragments *NET_BASE_RESTRICT fragments, size_t capacity,
    const struct net_base_run *NET_BASE_RESTRICT runs, size_t runs_length,
    size_t *NET_BASE_RESTRICT size) NET_BASE_LINK(fragments_complete);

/** @} */

/** @defgroup net_base_parts_sum The Internet checksum of a message in parts, such as a
 * pseudo-header, a header and data
 *
 * The Internet checksum of a message in parts, such as a pseudo-header, a header and data.
 *
 * @{ */

/** The sum of the 16-bit words of a message, which is given in parts of any lengths, one after
 * another. One of zeros is that of no bytes.
 *
 * A head of zeros is new: no bytes were added. */
struct net_base_parts_sum {
    uint16_t sum; /**< The sum of the words, folded to 16 bits; 0 only if that sum is 0. */
    bool odd; /**< Whether the next byte is the low byte of a word. */
};

/** Makes `sum` the sum of no bytes. */
void net_base_parts_sum_init(struct net_base_parts_sum *sum) NET_BASE_LINK(parts_sum_init);

/** Adds the bytes that follow those which were added. */
void net_base_parts_sum_add(
    struct net_base_parts_sum *NET_BASE_RESTRICT sum, const uint8_t *NET_BASE_RESTRICT part,
    size_t part_length) NET_BASE_LINK(parts_sum_add);

/** Returns the checksum of the bytes that were added. It is a number: in a message its high byte
 * comes first. UDP sends 65535 in place of 0, which says there that there is none (RFC 768): a
 * message with either is valid. */
uint16_t net_base_parts_sum_checksum(
    const struct net_base_parts_sum *sum) NET_BASE_LINK(parts_sum_checksum);

/** @} */

/** @defgroup net_base_finite_receiver A stream out of segments, for QUIC or a protocol of your own
 *
 * A stream out of segments, for QUIC or a protocol of your own. The stream is *finite* if a
 * segment says where it ends; otherwise it has no end. The end is the position after the last
 * byte. It takes a position, as TCP's FIN does, but no room.
 *
 * @{ */

/** What a receiver has besides its storage and its waiting ranges: numbers. */
struct net_base_receiver {
    uint64_t first; /**< The position of the stream's first byte. */
    uint64_t count_read; /**< How many bytes were read. */
    struct net_base_ring place; /**< Where the queue is in the storage. */
    /** What the waiting ranges are counted from, and how many there are. */
    struct net_base_assembler held;
};

/** What a receiver of a stream that ends has besides its storage and its waiting ranges: numbers.
 *
 * A head of zeros is new, of a stream that begins at position 0.
 * `net_base_finite_receiver_segment` takes what arrives, and `net_base_finite_receiver_read`
 * copies what is in order. To read in place, pass `receiver.place` to `net_base_ring_allocated`,
 * which says where the queue is, and then take the bytes off by `net_base_finite_receiver_remove`.
 * `net_base_finite_receiver_acknowledged` says up to where all has arrived, and
 * `net_base_finite_receiver_has_read_all` that the stream has ended and all of it was read.
 *
 * The first missing position is `receiver.first`, plus the bytes read, plus those queued. Waiting
 * range k, of `receiver.held.used`, is from that position plus `receiver.held.first_start` plus
 * `runs[k].start` on, and its end likewise. The rest of the storage is free, and waiting ranges
 * are kept in it.
 *
 * An end in order is never refused, as `net_base_finite_receiver_segment` says: what waits beyond
 * it is dropped, and an end that was known is replaced. An end beyond the free window isn't taken.
 */
struct net_base_finite_receiver {
    struct net_base_receiver receiver; /**< The receiver of the bytes. */
    /** The position after the end's, or 0 while the end isn't known. It is acknowledged once all
     * has arrived. */
    uint64_t after_end;
};

/** How many bytes of a segment were kept, and how many joined the queue. */
struct net_base_kept_counts {
    /** How many bytes were kept: those of the segment whose positions are in the free window, and
     * below an end that is known. */
    size_t kept;
    /** How many bytes joined the queue: by how many positions the first missing position moved up.
     */
    size_t queued;
};

/** Makes `receiver` the head of a receiver of a stream that begins at position `first`; nothing has
 * arrived. Storage and runs may have any values.
 *
 * It is refused if `first` is `UINT64_MAX`: false, and nothing changes. */
NET_BASE_MUST_USE bool net_base_finite_receiver_init(
    struct net_base_finite_receiver *receiver, uint64_t first) NET_BASE_LINK(finite_receiver_init);

/** Returns whether head and runs are sound over a storage of `capacity` bytes: they are those of a
 * receiver, and the position after its last byte, also of those that wait, is at most the end, if
 * that is known, and below 2^64 - 1. It looks at each used run, and at no byte. */
NET_BASE_MUST_USE bool net_base_finite_receiver_is_sound(
    const struct net_base_finite_receiver *receiver, size_t capacity,
    const struct net_base_run *runs, size_t runs_length) NET_BASE_LINK(finite_receiver_is_sound);

/** Returns whether the stream can end at `position`: it is the end that is known, or none is, and
 * it isn't below the first missing position or the end of a waiting range. 2^64 - 1 is no end.
 * `net_base_finite_receiver_segment` takes an end in order even if this is false.
 *
 * It is refused if the first missing position doesn't fit 64 bits, or `held.used` is above
 * `runs_length`: false. Requires: head and runs are sound, as `net_base_finite_receiver_is_sound`
 * tests. */
NET_BASE_MUST_USE bool net_base_finite_receiver_can_end(
    const struct net_base_finite_receiver *receiver, const struct net_base_run *runs,
    size_t runs_length, uint64_t position) NET_BASE_LINK(finite_receiver_can_end);

/** Writes to `number` the number that an acknowledgement carries: the first missing position, or,
 * once all bytes and the end have arrived, the end plus 1, since the end takes a position.
 *
 * It is refused if the position after the first missing one doesn't fit 64 bits: false, and
 * nothing changes. */
NET_BASE_MUST_USE bool net_base_finite_receiver_acknowledged(
    const struct net_base_finite_receiver *NET_BASE_RESTRICT receiver,
    uint64_t *NET_BASE_RESTRICT number) NET_BASE_LINK(finite_receiver_acknowledged);

/** Returns whether all bytes were read, up to the end. Once it is so it stays so.
 *
 * It is refused if the position after the first missing one doesn't fit 64 bits: false. */
NET_BASE_MUST_USE bool net_base_finite_receiver_has_read_all(
    const struct net_base_finite_receiver *receiver) NET_BASE_LINK(finite_receiver_has_read_all);

/** Copies bytes from the beginning of the queue to that of `into`, takes them off the queue, and
 * returns how many: as many as are queued and as `into` has room for. The rest of `into` stays as
 * it is.
 *
 * It is refused if `receiver.receiver.place` isn't that of a ring of `storage_length` elements, or
 * if the first missing position doesn't fit 64 bits: `NET_BASE_NONE`, and nothing changes. */
NET_BASE_MUST_USE size_t net_base_finite_receiver_read(
    struct net_base_finite_receiver *NET_BASE_RESTRICT receiver,
    const uint8_t *NET_BASE_RESTRICT storage, size_t storage_length,
    uint8_t *NET_BASE_RESTRICT into, size_t into_length) NET_BASE_LINK(finite_receiver_read);

/** Takes the first `count` bytes off the queue, as `net_base_finite_receiver_read` does, and copies
 * none: they were read in place. `capacity` is how many bytes the storage has.
 *
 * It is refused if `receiver.receiver.place` isn't that of a ring of `capacity` elements, or if
 * fewer than `count` elements are queued, or if the first missing position doesn't fit 64 bits:
 * false, and nothing changes. */
NET_BASE_MUST_USE bool net_base_finite_receiver_remove(
    struct net_base_finite_receiver *receiver, size_t capacity, size_t count)
    NET_BASE_LINK(finite_receiver_remove);

/** Keeps the bytes of a segment, the first at `position`, that are in the free window and below the
 * end, and writes to `counts` how many. If it `is_last`, the stream ends after it. While something
 * is missing, a last segment is *in order* if it begins at or below the first missing position,
 * and ends at or above that and within the free window. Its end is always taken: it replaces an
 * end that was known, and drops what waits beyond. For any other last segment this returns
 * `NET_BASE_SEGMENT_OTHER_END` if the stream can't end there, as
 * `net_base_finite_receiver_can_end` tells. Else it returns `NET_BASE_SEGMENT_TOO_MANY_RUNS` if
 * the segment lacks the next missing byte and would make one waiting range too many. After both
 * nothing has changed. It is refused if the head isn't one over such storage and runs:
 * `NET_BASE_SEGMENT_REFUSED`, and nothing changes. Requires: head and runs are sound, as
 * `net_base_finite_receiver_is_sound` tests. */
NET_BASE_MUST_USE enum net_base_segment_status net_base_finite_receiver_segment(
    struct net_base_finite_receiver *NET_BASE_RESTRICT receiver, uint8_t *NET_BASE_RESTRICT storage,
    size_t storage_length, struct net_base_run *NET_BASE_RESTRICT runs, size_t runs_length,
    uint64_t position, const uint8_t *NET_BASE_RESTRICT bytes, size_t bytes_length, bool is_last,
    struct net_base_kept_counts *NET_BASE_RESTRICT counts) NET_BASE_LINK(finite_receiver_segment);

/** Writes the end of the free window to `end`, and returns true. That is the first position that
 * isn't kept, which you may announce. It is never below what
 * `net_base_finite_receiver_acknowledged` writes.
 *
 * It is refused if more than `capacity` bytes are queued, or if that end or the position after the
 * first missing one doesn't fit 64 bits: false, and nothing changes. */
NET_BASE_MUST_USE bool net_base_finite_receiver_window_end(
    const struct net_base_finite_receiver *NET_BASE_RESTRICT receiver, size_t capacity,
    uint64_t *NET_BASE_RESTRICT end) NET_BASE_LINK(finite_receiver_window_end);

/** @} */

/** @defgroup net_base_receiving_end The receiving side of a TCP connection
 *
 * The receiving side of a TCP connection: a receiver of a stream that ends, the window that it
 * announces, when it acknowledges, and what an acknowledgement lists. A connection of TCP has one
 * of these, one `struct net_base_sending_end` and one `struct net_base_answer_limit`. In the order
 * of a connection:
 * - Both directions have a *first position*, which `.._init` and `.._open` are passed: that of the
 *   first byte after the SYN. The SYN has the position before it, and the FIN the one after the
 *   last byte.
 * - Before the peer's SYN has come (SYN-SENT), don't ask `net_base_receiving_end_classify`: a
 *   segment acknowledges your SYN if its acknowledgement number is that of your first position.
 * - After the peer's SYN, your SYN is acknowledged once `net_base_sending_end_acknowledged` has
 *   the status `NET_BASE_ACKNOWLEDGED_DONE`. At another status before that, send a RST with that
 *   acknowledgement's number, and take nothing of the segment (RFC 9293, 3.10.7.4).
 * - A segment whose bytes are in several buffers is classified once, and then passed to
 *   `net_base_receiving_end_arrived` piece by piece. Each piece counts as a segment, so the second
 *   one makes an acknowledgement due.
 * - If `net_base_receiving_end_arrived` returns `NET_BASE_SEGMENT_TOO_MANY_RUNS` or
 *   `NET_BASE_SEGMENT_OTHER_END`, go on: nothing of the segment was kept, and an acknowledgement
 *   is due, by which the peer knows what to send again.
 * - The peer's FIN may arrive before bytes that are missing. All has come up to it once
 *   `net_bound_receiving_end_is_complete` is true: then `receiver.after_end` isn't 0, and
 *   `net_base_finite_receiver_acknowledged` writes the same.
 * - No call gives up. How long nothing may be acknowledged until you do is yours to count: 100
 *   seconds at least, and 3 minutes for a SYN (RFC 9293, 3.8.3).
 *
 * @{ */

/** What a receiver has announced: how far its promise reaches. */
struct net_base_advertised_window {
    uint64_t edge; /**< The position after the last one that was ever promised. */
};

/** A waiting range, or a block of an acknowledgement, by positions of the stream: from `start` on,
 * up to `end`, which is not included. */
struct net_base_held_run {
    uint64_t start; /**< The first position. */
    uint64_t end; /**< The position after the last one. */
};

/** All of a receiving end but its receiver: what it announced, when it acknowledges, and what came
 * twice. */
struct net_base_receiving {
    struct net_base_advertised_window advertised; /**< What was announced. */
    uint64_t newest; /**< The position of the newest segment. */
    uint64_t recent[4]; /**< The starts of the ranges that were listed last. */
    struct net_base_held_run duplicate; /**< What came twice, and wasn't reported yet. */
    uint16_t segment_size; /**< The most bytes of a segment. */
    uint8_t scale; /**< The scale of the windows. */
    /** How many segments wait for an acknowledgement, 2 at most: it is due if as many do. */
    uint8_t unanswered;
    bool has_duplicate; /**< Whether anything came twice, and wasn't reported yet. */
};

/** The receiving end of a stream.
 *
 * A head of zeros is new, of a stream that begins at position 0, with segments of no bytes. All of
 * an end is in its head but the bytes: at most 16 ranges wait. A segment is classified, and
 * arrives if it is to be taken; `net_base_receiving_end_answer` is for one that is only answered.
 * While `net_base_receiving_end_is_due` is true, an acknowledgement is to be sent at once. While
 * `net_base_receiving_end_is_wanted` is true, one is to be sent within half a second, unless a
 * segment with bytes is sent before that and announces. Two calls of a finite receiver may be
 * passed `receiver`: `net_base_finite_receiver_acknowledged` writes the first missing position,
 * and `net_base_finite_receiver_has_read_all` returns whether the peer's stream has ended and was
 * read. */
struct net_base_receiving_end {
    struct net_base_finite_receiver receiver; /**< The receiver. */
    struct net_base_run runs[16]; /**< The ranges that wait. */
    struct net_base_receiving head; /**< All else that it knows. */
};

/** The positions and the flags of an arriving segment. */
struct net_base_segment {
    uint64_t seq; /**< The position of its first byte, or of its SYN. */
    uint64_t len; /**< How many positions it has: its bytes, and one each for a SYN and a FIN. */
    bool syn; /**< Whether its flag SYN is set. */
    bool ack; /**< Whether its flag ACK is set. */
    bool rst; /**< Whether its flag RST is set. */
};

/** What a segment without bytes tells the peer. */
struct net_base_acknowledgement {
    /** The first position that is missing. The end of the stream has one too, after the last byte.
     */
    uint64_t next;
    /** What came twice since the last one (RFC 2883), unless an end in order let go of it; and then
     * the newest waiting ranges, the newest first. */
    struct net_base_held_run blocks[4];
    size_t block_count; /**< How many blocks there are. The others are zeros. */
    uint16_t window; /**< The window, in units of the scale. */
};

/** Makes `end` the receiving side of a connection, whose stream begins at position `first`, at
 * which nothing has arrived. The peer's segments have at most `segment_size` bytes, which is the
 * MSS of your SYN. The storage may have any values.
 *
 * It is refused if `first` is `UINT64_MAX`: false, and nothing changes. */
NET_BASE_MUST_USE bool net_base_receiving_end_init(
    struct net_base_receiving_end *end, uint64_t first, uint16_t segment_size)
    NET_BASE_LINK(receiving_end_init);

/** Returns whether this head is sound over a storage of `capacity` bytes: its receiver is, with the
 * runs. It looks at each used run, and at no byte. Ask it of a struct that anything but these
 * calls may have written. */
NET_BASE_MUST_USE bool net_base_receiving_end_is_sound(
    const struct net_base_receiving_end *end, size_t capacity)
    NET_BASE_LINK(receiving_end_is_sound);

/** Begins again with a stream that begins at position `first`, and whose windows have this scale.
 * `capacity` is how many bytes the storage has. Writes to `window` what a SYN announces, which has
 * no scale, and returns true. Pass the smallest scale for which `capacity >> scale` is at most
 * 65535: a window is announced in whole units of `1 << scale`. One above 14 counts as 14.
 *
 * It is refused if `first` is `UINT64_MAX`: false, and nothing changes. */
NET_BASE_MUST_USE bool net_base_receiving_end_open(
    struct net_base_receiving_end *NET_BASE_RESTRICT end, size_t capacity, uint64_t first,
    uint8_t scale, uint16_t *NET_BASE_RESTRICT window) NET_BASE_LINK(receiving_end_open);

/** Returns what to do with a segment that arrives after the peer's SYN, in the window that was
 * announced, whatever is free now. `capacity` is how many bytes the storage has. It is as RFC
 * 9293, section 3.10.7.4, has it; resets and SYNs are answered as RFC 5961 has it. While your
 * window is shut, acknowledgements are taken all the same, so that two full ends hear of one
 * another.
 *
 * Afterwards `net_base_sending_end_acknowledged` tests what the segment acknowledges. */
NET_BASE_MUST_USE enum net_base_arrival_status net_base_receiving_end_classify(
    const struct net_base_receiving_end *end, size_t capacity,
    const struct net_base_segment *segment) NET_BASE_LINK(receiving_end_classify);

/** Takes the bytes of a segment, the first at `position`, and the end if it `is_last`, writes to
 * `counts` how many were kept, and returns what `net_base_finite_receiver_segment` does. An
 * acknowledgement is due for each second segment, and for one out of order, with the end, or not
 * kept. One with neither bytes nor the end changes nothing. It is refused if `end` isn't one over
 * `storage_length` bytes: `NET_BASE_SEGMENT_REFUSED`, and nothing changes. Requires: the head is
 * sound, as `net_base_receiving_end_is_sound` tests. */
NET_BASE_MUST_USE enum net_base_segment_status net_base_receiving_end_arrived(
    struct net_base_receiving_end *NET_BASE_RESTRICT end, uint8_t *NET_BASE_RESTRICT storage,
    size_t storage_length, uint64_t position, const uint8_t *NET_BASE_RESTRICT bytes,
    size_t bytes_length, bool is_last, struct net_base_kept_counts *NET_BASE_RESTRICT counts)
    NET_BASE_LINK(receiving_end_arrived);

/** Makes `net_base_receiving_end_is_due` true: an acknowledgement is to be sent at once. */
void net_base_receiving_end_answer(
    struct net_base_receiving_end *end) NET_BASE_LINK(receiving_end_answer);

/** Returns whether an acknowledgement is to be sent at once. */
NET_BASE_MUST_USE bool net_base_receiving_end_is_due(
    const struct net_base_receiving_end *end) NET_BASE_LINK(receiving_end_is_due);

/** Returns whether an acknowledgement is to be sent within half a second (RFC 9293, 3.8.6.3): a
 * segment waits for one, or an update of the window is worth a segment. It is true too while
 * `net_base_receiving_end_is_due` is. `capacity` is how many bytes the storage has. Once all has
 * arrived, no update is wanted. Ask it before you wait. A segment with bytes that you send in the
 * meantime acknowledges too: ask again before you send one without.
 *
 * It is refused if `end` isn't one over `capacity` bytes: false. Requires: the head is sound with
 * the storage, as `net_base_receiving_end_is_sound` tests. */
NET_BASE_MUST_USE bool net_base_receiving_end_is_wanted(
    const struct net_base_receiving_end *end, size_t capacity)
    NET_BASE_LINK(receiving_end_is_wanted);

/** Writes what a segment with bytes of its own tells, and returns true: the first missing position
 * to `next`, and to `window` the window, in units of the scale. Once you have called it, send the
 * segment. An acknowledgement that is due stays due, since this segment lists no ranges.
 *
 * It is refused if `end` isn't one over `capacity` bytes: false, and nothing changes. Requires:
 * the head is sound, as `net_base_receiving_end_is_sound` tests. */
NET_BASE_MUST_USE bool net_base_receiving_end_announce(
    struct net_base_receiving_end *NET_BASE_RESTRICT end, size_t capacity,
    uint64_t *NET_BASE_RESTRICT next, uint16_t *NET_BASE_RESTRICT window)
    NET_BASE_LINK(receiving_end_announce);

/** Writes what a segment without bytes tells, and returns true. Once you have called it, send the
 * segment: what came twice is told once. `capacity` is how many bytes the storage has.
 *
 * It is refused if `end` isn't one over `capacity` bytes: false, and nothing changes. Requires:
 * the head is sound with the storage, as `net_base_receiving_end_is_sound` tests. */
NET_BASE_MUST_USE bool net_base_receiving_end_acknowledgement(
    struct net_base_receiving_end *NET_BASE_RESTRICT end, size_t capacity,
    struct net_base_acknowledgement *NET_BASE_RESTRICT acknowledgement)
    NET_BASE_LINK(receiving_end_acknowledgement);

/** Copies bytes from the beginning of the queue to that of `into`, takes them off the queue, and
 * returns how many: as many as are queued and as `into` has room for. The rest of `into` stays as
 * it is.
 *
 * It is refused if `end` isn't one over `storage_length` bytes: `NET_BASE_NONE`, and nothing
 * changes. */
NET_BASE_MUST_USE size_t net_base_receiving_end_read(
    struct net_base_receiving_end *NET_BASE_RESTRICT end, const uint8_t *NET_BASE_RESTRICT storage,
    size_t storage_length, uint8_t *NET_BASE_RESTRICT into, size_t into_length)
    NET_BASE_LINK(receiving_end_read);

/** @} */

/** @defgroup net_base_sending_end The sending side of a TCP connection
 *
 * The sending side of a TCP connection: a sender of a stream that ends, what the peer has
 * reported, what is lost, the timer, and the peer's window. A program needs few of the fields
 * below: it fills in `struct net_base_timeout_bounds`, and net_bound.h has calls that read those
 * of `sender`. All others, such as those of `struct net_base_loss_recovery`, are for the calls
 * alone, and may differ in the next version.
 *
 * @{ */

/** What a sender has besides its storage: numbers. */
struct net_base_sender {
    uint64_t first_unacknowledged; /**< The position of the queue's first byte. */
    struct net_base_ring place; /**< Where the queue is in the storage. */
};

/** What a sender of a stream that ends has besides its storage: numbers. */
struct net_base_finite_sender {
    struct net_base_sender sender; /**< The sender of the bytes. */
    uint64_t closed; /**< 1 once it is closed, 0 before. */
    uint64_t finished; /**< 1 once the end is acknowledged, 0 before. */
    uint64_t sent; /**< The number after the last one that was ever sent. */
};

/** What a scoreboard has besides its runs. */
struct net_base_scoreboard {
    uint64_t base; /**< The first position that wasn't reported. */
    /** The positions beyond that were, counted from `base`: the head of an assembler. */
    struct net_base_assembler reported;
};

/** What is sent again in a pass, which begins at the lowest position that is lost. */
struct net_base_recovery_pass {
    uint64_t again; /**< What is lost below this position was sent again in this pass. */
    /** What is lost from this position on and below the mark was sent again before this pass, which
     * leaves it out. */
    uint64_t turn;
};

/** A moment of a recovery: what is sent after it tells that what was sent before it is lost. */
struct net_base_recovery_mark {
    uint64_t resume; /**< All that was sent again below this position was sent before it. */
    uint64_t sent; /**< The number after the last one that was sent before it. */
    uint64_t later; /**< How many positions were sent again from `resume` on after it. */
};

/** A probe for an answer. */
struct net_base_recovery_probe {
    uint64_t first; /**< Its first position. */
    uint64_t asked; /**< All that is below this position was sent before it. */
};

/** What was sent again in a recovery, which may have been for nothing. */
struct net_base_recovery_copies {
    uint64_t since; /**< The first position that wasn't acknowledged when it began. */
    /** How many positions were sent again since then, less those that came twice. */
    uint64_t count;
};

/** What a sender of TCP sends next where segments are lost: first what is lost, then what was never
 * sent. */
struct net_base_loss_recovery {
    uint64_t until; /**< The recovery lasts until all positions below this one are acknowledged. */
    uint64_t lost; /**< What is below this position and isn't reported is lost. */
    struct net_base_recovery_pass pass; /**< What was sent again. */
    struct net_base_recovery_mark mark; /**< When it was. */
    struct net_base_recovery_probe probe; /**< The probe that wasn't answered, if there is one. */
    uint64_t unknown; /**< How many positions have arrived that the peer doesn't report. */
    uint64_t round; /**< Until all positions below this one are acknowledged, `duplicates` stays. */
    struct net_base_recovery_copies copies; /**< What may have been sent again for nothing. */
    /** How many segments above a position tell that it is lost. Fewer than 3 count as 3. */
    size_t duplicates;
    bool has_probe; /**< Whether a probe wasn't answered. */
    bool is_blind; /**< Whether the peer doesn't report what has arrived, as the SYNs say. */
    /** Whether the last recovery was a sign of congestion, and wasn't taken back. */
    bool is_congestion;
};

/** What was reported and what is lost of what a sender has sent: a scoreboard, and a recovery. */
struct net_base_buffer {
    /** What was reported, with runs that the caller keeps. */
    struct net_base_scoreboard scoreboard;
    struct net_base_loss_recovery recovery; /**< What is lost. */
};

/** The timer of retransmissions, by the rules of RFC 6298, section 5, and the one segment that is
 * timed for a sample. */
struct net_base_retransmission_timer {
    /** Eight times the smoothed time of a round trip. No more than 2^63 of it counts, which samples
     * don't exceed. */
    uint64_t srtt_8;
    uint64_t rttvar_4; /**< Four times its variation. No more than 2^62 of it counts. */
    uint64_t timeout; /**< The timeout, if `has_timeout`; else it is 1 second. */
    int64_t ends_at; /**< When the timeout passes, while it runs. */
    int64_t probe_at; /**< When a probe is due, if the timer runs and that is earlier. */
    uint64_t wait; /**< How long the probe has waited then. The next one waits twice that. */
    uint64_t timed; /**< The position of the timed segment, if there is one. */
    int64_t timed_since; /**< When that was sent. */
    uint64_t last; /**< Where the last segment begins that had something new. */
    /** How often the timeout has passed since anything new was acknowledged or reported. */
    uint64_t timeouts;
    uint64_t prompt; /**< How many samples in a row of one segment alone weren't late, up to 8. */
    bool has_estimate; /**< Whether there was a sample. */
    bool has_timeout; /**< Whether `timeout` counts: always but in a timer of zeros. */
    bool is_running; /**< Whether it runs. */
    bool is_alone; /**< Whether it waits for an acknowledgement that may be delayed. */
    bool is_timing; /**< Whether a segment is timed. */
    bool reports; /**< Whether the peer reports blocks. */
};

/** The window that the peer announced, and the segment that it is from. It is kept as its right
 * edge, a position. */
struct net_base_peer_window {
    uint64_t edge; /**< The position after the window's last one. */
    /** The position of the segment that the window is from, by the peer's numbers. */
    uint64_t seq;
    uint64_t ack; /**< The position that this segment acknowledged. */
};

/** All of a sending end but its sender and the times that were set: what was reported and what is
 * lost, the timer, and what the peer announced. */
struct net_base_sending {
    struct net_base_buffer buffer; /**< What was reported and what is lost. */
    struct net_base_retransmission_timer timer; /**< The timer. */
    struct net_base_peer_window peer_window; /**< The peer's window. */
    uint64_t greatest_window; /**< The greatest window that the peer ever announced. */
    uint64_t last_window; /**< The window that it announced last. */
    size_t segment_size; /**< The most bytes of a segment. 0 counts as 1. */
    bool no_delay; /**< Whether Nagle's rule is disabled. */
    bool is_open; /**< Whether the peer has acknowledged anything, if only this end's SYN. */
    /** Whether the timeout has passed and nothing was sent since then: nothing is held back, and if
     * the window is shut, the next segment is a probe of it. */
    bool is_window_probe_due;
    /** Whether the next segment is a probe for an answer, if nothing else may be sent. */
    bool is_overdue;
};

/** The bounds of a timeout, the tick of the clock that the samples are read from, and how long a
 * peer delays an acknowledgement. */
struct net_base_timeout_bounds {
    uint64_t least; /**< The least timeout. 0 counts as 1 second (RFC 6298, 2.4). */
    uint64_t most; /**< The greatest, unless `least` is above it. 0 counts as 60 seconds (2.5). */
    uint64_t tick; /**< The time between two ticks of the clock; 0 if it counts each microsecond. */
    /** The longest time for which the peer delays the acknowledgement of one segment: 200,000 for
     * TCP. A loss probe waits for that, so it has no effect without SACK. */
    uint64_t ack_delay;
};

/** The sending end of a stream.
 *
 * A head of zeros is new, of a stream that begins at position 0, whose first timeout is 1 second
 * within the RFC's bounds. All of an end is in its head but the bytes: at most 16 ranges are
 * remembered of what was reported, enough for windows of 128 segments on paths that lose or
 * reorder. `net_base_sending_end_write` alone is passed the storage: others need at most its
 * capacity. When the peer's SYN has come, `net_base_sending_end_open` begins with it. What a
 * segment acknowledges, pass to `net_base_sending_end_acknowledged`.
 * `net_base_sending_end_next_segment` says what to send, until it says that nothing is, and
 * `net_base_sending_end_bytes` where that is. At the moment that `net_base_sending_end_expires_at`
 * writes, call `net_base_sending_end_expired`.
 *
 * A number whose flag is false doesn't count, whatever it is. */
struct net_base_sending_end {
    struct net_base_finite_sender sender; /**< The sender. */
    struct net_base_run runs[16]; /**< The runs of what was reported. */
    struct net_base_sending head; /**< All else that it knows. */
    uint64_t first_timeout; /**< The timeout before any sample. 0 counts as 1 second. */
    struct net_base_timeout_bounds bounds; /**< The bounds of the timeout. */
};

/** What a segment announces: the window from the position that it acknowledges on, and the numbers
 * by which its age is told. */
struct net_base_announcement {
    uint64_t seq; /**< The position of the segment's first byte, in the peer's stream. */
    uint64_t ack; /**< The position that it acknowledges. */
    /** How many bytes may be sent from there on: the field of a header, shifted left by the scale.
     */
    uint64_t window;
};

/** What an acknowledgement said. */
struct net_base_taken_acknowledgement {
    enum net_base_acknowledged_status status; /**< What became of it. */
    uint64_t count; /**< How many positions it acknowledged that weren't before. */
    bool reports; /**< Whether a block of it reports what wasn't known. */
    bool begins; /**< Whether it begins a recovery: then halve the congestion window. */
};

/** Whether the timer has ended, and what that means. */
struct net_base_ended_timer {
    enum net_base_expired_status status; /**< What it means. */
    /** Whether `NET_BASE_EXPIRED_OVERDUE` begins a recovery: then halve the congestion window.
     * False at all others. */
    bool begins;
};

/** A segment to send now. */
struct net_base_outgoing_segment {
    enum net_base_outgoing_status status; /**< Whether there is one. */
    uint64_t position; /**< The position of its first byte, or of the end; 0 if there is none. */
    /** The position after its last one, where the end has one too; 0 if there is none. */
    uint64_t end;
    bool is_again; /**< Whether some of it was sent before. */
};

/** Where the bytes of a segment are, in two parts, and whether it ends the stream. */
struct net_base_segment_parts {
    size_t from; /**< The index of the first byte; `NET_BASE_NONE` if the call was refused. */
    size_t count; /**< How many bytes are from there on. */
    size_t rest_from; /**< The index of the bytes after these. */
    size_t rest_count; /**< How many bytes are from there on. */
    bool is_last; /**< Whether the segment ends the stream. */
};

/** Makes `end` the sending side of a connection, whose stream begins at position `first`, and to
 * which nothing was written. `first_timeout` is the timeout, in microseconds, before any round
 * trip was measured. 0 means 1,000,000, as RFC 6298 (2.1) says. In `bounds` zeros mean what the
 * RFC says, but set `ack_delay`: 200,000 for TCP, or 0 if the peer answers at once. The storage
 * may have any values.
 *
 * It is refused if `first` is `UINT64_MAX`, since an end there would have no number after it:
 * false, and nothing changes. */
NET_BASE_MUST_USE bool net_base_sending_end_init(
    struct net_base_sending_end *NET_BASE_RESTRICT end, uint64_t first, uint64_t first_timeout,
    const struct net_base_timeout_bounds *NET_BASE_RESTRICT bounds) NET_BASE_LINK(sending_end_init);

/** Returns whether the end is sound over a storage of `capacity` bytes: `sender` is that of a
 * sender over as many, and `runs` are those of `head.buffer.scoreboard`. All other numbers may be
 * any. It looks at each used run. Calls that need it test it themselves. */
NET_BASE_MUST_USE bool net_base_sending_end_is_sound(
    const struct net_base_sending_end *end, size_t capacity) NET_BASE_LINK(sending_end_is_sound);

/** Begins with a peer, whose SYN announced a window, how many bytes a segment may have, and whether
 * it reports blocks (SACK). Without SACK there is no early loss probe, as the peer couldn't answer
 * it: a lost last segment is sent again when the timer ends. Window probes are sent all the same.
 * `announcement.seq` is the SYN's position, and `announcement.ack` your first position, even if
 * the SYN has no ACK. `segment_size` counts bytes of the stream alone: pass the peer's MSS less
 * the options that each of your segments has (RFC 6691). What was written stays. Call it once,
 * before anything is sent. A second call begins with another peer.
 *
 * It is refused if `end` isn't sound over `capacity` bytes: false, and nothing changes. */
NET_BASE_MUST_USE bool net_base_sending_end_open(
    struct net_base_sending_end *NET_BASE_RESTRICT end, size_t capacity,
    const struct net_base_announcement *NET_BASE_RESTRICT announcement, size_t segment_size,
    bool reports, int64_t now) NET_BASE_LINK(sending_end_open);

/** Returns whether a SYN is to be sent now, the first one or one after a timeout, and starts the
 * timer for the next. Ask it only until your SYN is acknowledged: it doesn't test that.
 *
 * It is refused if `end` isn't sound over `capacity` bytes: false, and nothing changes. */
NET_BASE_MUST_USE bool net_base_sending_end_is_opening_due(
    struct net_base_sending_end *end, size_t capacity, int64_t now)
    NET_BASE_LINK(sending_end_is_opening_due);

/** Enables Nagle's rule (RFC 9293, 3.7.4), or disables it. While something that was sent isn't
 * acknowledged, less than a whole segment waits by it, unless the stream is closed or the timer
 * has ended. It is enabled at first. */
void net_base_sending_end_set_nagle_enabled(
    struct net_base_sending_end *end, bool enabled) NET_BASE_LINK(sending_end_set_nagle_enabled);

/** Enqueues the first of these bytes, as many as there is room for, and returns how many: none of a
 * stream that is closed.
 *
 * It is refused if `sender` isn't that of a sender over `storage_length` bytes: `NET_BASE_NONE`,
 * and nothing changes. */
NET_BASE_MUST_USE size_t net_base_sending_end_write(
    struct net_base_sending_end *NET_BASE_RESTRICT end, uint8_t *NET_BASE_RESTRICT storage,
    size_t storage_length, const uint8_t *NET_BASE_RESTRICT bytes, size_t bytes_length)
    NET_BASE_LINK(sending_end_write);

/** Ends the stream after what was written. A second call changes nothing. */
void net_base_sending_end_close(struct net_base_sending_end *end) NET_BASE_LINK(sending_end_close);

/** Takes what a segment acknowledges and announces, and the blocks that it reports, as positions.
 * Pass `is_empty` if the segment has no byte and no FIN. Blocks of what wasn't sent are ignored.
 *
 * It is refused if `end` isn't sound over `capacity` bytes, or if there are more than 4 blocks:
 * `count` is 0, `reports` and `begins` are false, the status is `NET_BASE_ACKNOWLEDGED_REFUSED`,
 * and nothing changes. */
NET_BASE_MUST_USE struct net_base_taken_acknowledgement net_base_sending_end_acknowledged(
    struct net_base_sending_end *NET_BASE_RESTRICT end, size_t capacity,
    const struct net_base_announcement *NET_BASE_RESTRICT announcement,
    const struct net_base_held_run *NET_BASE_RESTRICT blocks, size_t blocks_length, bool is_empty,
    int64_t now) NET_BASE_LINK(sending_end_acknowledged);

/** Returns whether the timer has ended, and what that means. If it has, it starts again, and
 * `net_base_sending_end_next_segment` says what is then to be sent.
 *
 * It is refused if `end` isn't sound over `capacity` bytes: `begins` is false, the status is
 * `NET_BASE_EXPIRED_REFUSED`, and nothing changes. */
NET_BASE_MUST_USE struct net_base_ended_timer net_base_sending_end_expired(
    struct net_base_sending_end *end, size_t capacity, int64_t now)
    NET_BASE_LINK(sending_end_expired);

/** Returns whether the last recovery was spurious, and ends it then: nothing had been lost, since
 * all that was sent again came twice (RFC 3708), and the rest arrived. Then restore the congestion
 * window of before the recovery. Ask it after each acknowledgement, an old one too. It is true at
 * most once after each sign of congestion: a `begins` that is true, or `NET_BASE_EXPIRED_LOST`.
 *
 * It is refused if `end` isn't sound over `capacity` bytes: false, and nothing changes. */
NET_BASE_MUST_USE bool net_base_sending_end_take_back(
    struct net_base_sending_end *end, size_t capacity) NET_BASE_LINK(sending_end_take_back);

/** Returns the segment that is to be sent now, and counts it as sent: if the peer's window and the
 * congestion window have room for one, or as a window probe or a loss probe. `congestion_window`
 * is how many bytes may be in flight, but one segment may be, however small it is. Less than a
 * whole segment may be held back (RFC 9293, 3.8.6.2.1, and Nagle's rule).
 *
 * It is refused if `end` isn't sound over `capacity` bytes: `position` and `end` are 0, `is_again`
 * is false, the status is `NET_BASE_OUTGOING_REFUSED`, and nothing changes. */
NET_BASE_MUST_USE struct net_base_outgoing_segment net_base_sending_end_next_segment(
    struct net_base_sending_end *end, size_t capacity, uint64_t congestion_window, int64_t now)
    NET_BASE_LINK(sending_end_next_segment);

/** Returns where the bytes of a segment from `position` on, and below `limit`, are, in two parts,
 * and whether the stream ends after them. Of a position that is acknowledged there are none.
 *
 * It is refused if `sender` isn't that of a sender over `capacity` bytes: `from` is
 * `NET_BASE_NONE`, `count`, `rest_from` and `rest_count` are 0, `is_last` is false. */
NET_BASE_MUST_USE struct net_base_segment_parts net_base_sending_end_bytes(
    const struct net_base_sending_end *end, size_t capacity, uint64_t position, uint64_t limit)
    NET_BASE_LINK(sending_end_bytes);

/** Returns whether all that was written is acknowledged, and the end. Once it is so it stays so. */
NET_BASE_MUST_USE bool net_base_sending_end_is_done(
    const struct net_base_sending_end *end) NET_BASE_LINK(sending_end_is_done);

/** Returns whether the timer runs, and if so writes to `moment` when to call
 * `net_base_sending_end_expired`. */
NET_BASE_MUST_USE bool net_base_sending_end_expires_at(
    const struct net_base_sending_end *NET_BASE_RESTRICT end, int64_t *NET_BASE_RESTRICT moment)
    NET_BASE_LINK(sending_end_expires_at);

/** Returns the position that an empty segment has, as an acknowledgement alone: its sequence
 * number.
 *
 * It is refused if the first position that isn't acknowledged doesn't fit 64 bits: `UINT64_MAX`. */
NET_BASE_MUST_USE uint64_t net_base_sending_end_empty_segment_position(
    const struct net_base_sending_end *end) NET_BASE_LINK(sending_end_empty_segment_position);

/** Returns whether a recovery from a loss is in progress.
 *
 * It is refused if the first position that isn't acknowledged doesn't fit 64 bits: false. */
NET_BASE_MUST_USE bool net_base_sending_end_is_recovering(
    const struct net_base_sending_end *end) NET_BASE_LINK(sending_end_is_recovering);

/** @} */

/** @defgroup net_base_answer_limit A limit of answers to segments of which nothing is taken (RFC
 * 5961, section 7)
 *
 * A limit of answers to segments of which nothing is taken (RFC 5961, section 7). Moments are in
 * microseconds, of one clock.
 *
 * @{ */

/** A limit of answers. Keep one for each connection.
 *
 * A limit of zeros allows an answer from moment 0 on. */
struct net_base_answer_limit {
    /** From this moment on a segment that may itself be an answer is answered again. */
    int64_t until;
};

/** Makes `limit` one before any answer, which allows one at any moment. */
void net_base_answer_limit_init(
    struct net_base_answer_limit *limit) NET_BASE_LINK(answer_limit_init);

/** Returns whether to answer a segment of which nothing is taken, `NET_BASE_ARRIVAL_ANSWER` of
 * `net_base_receiving_end_classify` or `NET_BASE_ACKNOWLEDGED_ANSWER` of
 * `net_base_sending_end_acknowledged`, and if so counts it as answered. A segment without
 * positions, which may be an answer itself, and a SYN are answered at most twice a second, so that
 * two ends don't answer each other's answers without end (RFC 5961, section 7). Any other is
 * answered each time. If the clock is set back, the limit stays until the moment that it was. */
NET_BASE_MUST_USE bool net_base_answer_limit_allows(
    struct net_base_answer_limit *NET_BASE_RESTRICT limit,
    const struct net_base_segment *NET_BASE_RESTRICT segment, int64_t now)
    NET_BASE_LINK(answer_limit_allows);

/** @} */

/** @defgroup net_base_sequence_number Sequence numbers of 32 bits, which wrap, and the positions of
 * 64 bits, which don't
 *
 * Sequence numbers of 32 bits, which wrap, and the positions of 64 bits, which don't.
 *
 * A receiver and a sender count in positions; TCP's segments have numbers. If position 0 has the
 * number `initial`, each position has one number, and a number has at most one position near a
 * given one. In TCP segments with numbers before that of the first byte arrive too, as old
 * duplicates. If the first byte has position 0, no position near 0 has such a number. If it has
 * the position 2^32 + its number, each has one: then `initial` is 0, and the low 32 bits of a
 * position are its number.
 *
 * @{ */

/** Returns whether a position near `next` has a number, if position 0 has the number `initial`, and
 * if so writes it to `position`: it is less than 2^31 after `next`, or at most 2^31 before it. */
NET_BASE_MUST_USE bool net_base_sequence_number_position(
    uint32_t number, uint32_t initial, uint64_t next, uint64_t *position)
    NET_BASE_LINK(sequence_number_position);

/** @} */

/* END */

/** @cond */
#if defined __GNUC__ && !defined __clang__
#pragma GCC diagnostic pop
#endif
/** @endcond */

/** A function that you write if the library was built with `--features check`: a call broke a duty.
 * `duty` is its number, but 7 for duties 5 and 6 too. `name` is that of the call, and `argument` that
 * of the parameter, or empty. It must not return, unless `duty` is 0: then no duty was broken, but
 * the call was refused, because the parameter is null if one is named.
 */
void net_base_broken(uint32_t duty, const char *name, const char *argument);

/** @cond */
#if defined __has_attribute
#if __has_attribute(access)
#define NET_BASE_READS(pointer, length) __attribute__((access(read_only, pointer, length)))
#define NET_BASE_WRITES(pointer, length) __attribute__((access(write_only, pointer, length)))
#define NET_BASE_SLICES(name, told) extern __typeof__(net_base_##name) net_base_##name told;
#pragma GCC diagnostic push
#pragma GCC diagnostic ignored "-Wredundant-decls"
NET_BASE_SLICES(ring_enqueue_slice, NET_BASE_WRITES(2, 3) NET_BASE_READS(4, 5))
NET_BASE_SLICES(ring_dequeue_slice, NET_BASE_READS(2, 3) NET_BASE_WRITES(4, 5))
NET_BASE_SLICES(packets_shorten_last, NET_BASE_WRITES(2, 3))
NET_BASE_SLICES(packets_enqueue, NET_BASE_WRITES(2, 3))
NET_BASE_SLICES(packets_dequeue, NET_BASE_READS(2, 3))
NET_BASE_SLICES(packets_peek, NET_BASE_READS(2, 3))
NET_BASE_SLICES(fragments_is_sound, NET_BASE_READS(3, 4))
NET_BASE_SLICES(fragments_set_total_size, NET_BASE_READS(3, 4))
NET_BASE_SLICES(fragments_add, NET_BASE_WRITES(2, 3) NET_BASE_WRITES(4, 5) NET_BASE_READS(7, 8))
NET_BASE_SLICES(fragments_differs, NET_BASE_READS(2, 3) NET_BASE_READS(4, 5) NET_BASE_READS(7, 8))
NET_BASE_SLICES(fragments_complete, NET_BASE_READS(3, 4))
NET_BASE_SLICES(parts_sum_add, NET_BASE_READS(2, 3))
NET_BASE_SLICES(finite_receiver_is_sound, NET_BASE_READS(3, 4))
NET_BASE_SLICES(finite_receiver_can_end, NET_BASE_READS(2, 3))
NET_BASE_SLICES(finite_receiver_read, NET_BASE_READS(2, 3) NET_BASE_WRITES(4, 5))
NET_BASE_SLICES(finite_receiver_segment, NET_BASE_WRITES(2, 3) NET_BASE_WRITES(4, 5) NET_BASE_READS(7, 8))
NET_BASE_SLICES(receiving_end_arrived, NET_BASE_WRITES(2, 3) NET_BASE_READS(5, 6))
NET_BASE_SLICES(receiving_end_read, NET_BASE_READS(2, 3) NET_BASE_WRITES(4, 5))
NET_BASE_SLICES(sending_end_write, NET_BASE_WRITES(2, 3) NET_BASE_READS(4, 5))
NET_BASE_SLICES(sending_end_acknowledged, NET_BASE_READS(4, 5))
#pragma GCC diagnostic pop
#endif
#endif
/** @endcond */

#ifdef __cplusplus
}
#endif
#endif
