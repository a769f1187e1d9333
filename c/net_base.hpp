/* SPDX-License-Identifier: 0BSD */
/** @file
 * A class of C++17 over the calls of net_base.h. It wants no heap, no exceptions and nothing of C++'s library.
 */
#ifndef NET_BASE_HPP
#define NET_BASE_HPP
#include "net_base.h"

namespace net_base {

/** What became of a segment: `NET_BASE_SEGMENT_DONE` and the counts, or why nothing of it was kept. */
struct Kept {
    net_base_segment_status status;
    net_base_kept_counts counts;
};

/** A receiver of a stream that ends, with its memory: a queue of `Capacity` bytes, and at most `MostRuns` runs of bytes that
 * arrived beyond it. A copy is a receiver of its own. */
template <size_t Capacity, size_t MostRuns>
class Receiver {
  public:
    /** A stream whose first byte has the position `first`, which is below `UINT64_MAX`. */
    explicit Receiver(uint64_t first) : is_right_(net_base_finite_receiver_init(&head_, first)) {}

    /** Whether `first` was a position that a stream can begin at. If not, nothing is ever kept. */
    explicit operator bool() const { return is_right_; }

    /** Keeps the bytes of a segment that fit: `net_base_finite_receiver_segment`. */
    Kept keep(uint64_t position, const void *bytes, size_t size, bool is_last) {
        Kept kept{NET_BASE_SEGMENT_REFUSED, {}};
        if (is_right_)
            kept.status = net_base_finite_receiver_segment(&head_, storage_, Capacity, runs_, MostRuns,
                position, static_cast<const uint8_t *>(bytes), size, is_last, &kept.counts);
        return kept;
    }

    /** Takes bytes off the queue's front, as many as `into` has room for, and returns how many. */
    size_t read(void *into, size_t size) {
        return net_base_finite_receiver_read(&head_, storage_, Capacity, static_cast<uint8_t *>(into), size);
    }

    /** Whether the end has arrived, and all before it was read. */
    bool has_read_all() const { return net_base_finite_receiver_has_read_all(&head_); }

    /** The numbers, for all other calls of a receiver that only look at it. */
    const net_base_finite_receiver &head() const { return head_; }

  private:
    net_base_finite_receiver head_{};
    uint8_t storage_[Capacity]{};
    net_base_run runs_[MostRuns]{};
    bool is_right_;
};

}  // namespace net_base
#endif
