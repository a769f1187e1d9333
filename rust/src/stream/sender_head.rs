// Written by tools/erase.py from crates/net_receiver/src/sender_head.rt: a change here would be lost.
//! A sender in parts: a head of numbers, and a storage that is kept elsewhere.

use crate::storage::{RingHead, Span};

/// What a sender has besides its storage: numbers.
///
/// It serves callers who keep the storage elsewhere, as in the memory of a program in C. Each call
/// takes it as a slice, or takes how many bytes it has.
///
/// A head is *sound* for a storage if it is that of a sender over it:
/// `IsSoundHead` in contracts, where `sender_of` is what is stored. A call that requires this can't
/// be made with the storage of another head. smoltcp has no such type.
#[repr(C)]
#[derive(Debug, Clone, Copy)]
pub struct SenderHead {
    /// The position of the queue's first byte.
    pub first_unacknowledged: u64,
    /// Where the queue is in the storage.
    pub place: RingHead,
}

impl SenderHead {
    /// Returns the head of a sender of a stream that begins at position `first`, to which nothing
    /// was written. It is sound for every storage.
    pub(crate) const fn new(first: u64) -> Self {
        SenderHead { first_unacknowledged: first, place: RingHead { read_at: 0, length: 0 } }
    }

    /// Copies the queue to the beginning of a larger storage, for which the head then is.
    ///
    /// # Requires
    ///
    /// The head is sound for the storage, and the other one is no smaller.
    pub(crate) fn grow(&mut self, storage: &[u8], larger: &mut [u8]) {
        self.place.read_allocated(storage, 0, larger);
        self.place.read_at = 0;
    }

    /// Returns the position after the last byte that was written.
    ///
    /// # Requires
    ///
    /// It fits 64 bits, as it does where the head is sound for a storage.
    #[inline]
    pub(crate) fn end(&self) -> u64 {
        self.first_unacknowledged + self.place.length as u64
    }

    /// Returns how many bytes `write` would take: as many as have room in a storage of `capacity`
    /// bytes and below the last position, 2^64 - 1.
    ///
    /// # Requires
    ///
    /// The head is sound for a storage of `capacity` bytes.
    #[inline]
    pub(crate) fn room(&self, capacity: usize) -> usize {
        let free = (capacity - self.place.length) as u64;
        free.min(u64::MAX - self.end()) as usize
    }

    /// Enqueues the first of these bytes, as many as `room` says, and returns how many. An empty
    /// queue is rewound before, also for no bytes.
    ///
    /// # Requires
    ///
    /// The head is sound for the storage.
    #[inline]
    pub(crate) fn write(&mut self, storage: &mut [u8], bytes: &[u8]) -> usize {
        let count = bytes.len().min(self.room(storage.len()));
        self.place.enqueue_slice(storage, &bytes[..count])
    }

    /// Returns where at most `max` queued bytes are, from the one at `pos` on; none if the byte at
    /// `pos` isn't queued. The storage has `capacity` bytes.
    ///
    /// # Requires
    ///
    /// The head is sound for a storage of `capacity` bytes.
    #[inline]
    pub(crate) fn peek_at(&self, capacity: usize, pos: u64, max: usize) -> Span {
        if pos < self.first_unacknowledged {
            return Span { from: 0, count: 0, contiguous: 0 };
        }
        let offset = (pos - self.first_unacknowledged).min(self.place.length as u64) as usize;
        self.place.allocated(capacity, offset, max)
    }

    /// Drops the bytes below `next`, and returns whether it did: false, and nothing changes, if
    /// `next` is below `first_unacknowledged` or above `end`. The storage has `capacity` bytes.
    ///
    /// # Requires
    ///
    /// The head is sound for a storage of `capacity` bytes.
    #[inline]
    pub(crate) fn acknowledge(&mut self, capacity: usize, next: u64) -> bool {
        if next < self.first_unacknowledged || next > self.end() {
            return false;
        }
        debug_assert!(next - self.first_unacknowledged <= self.place.length as u64);
        let count = (next - self.first_unacknowledged) as usize;
        self.place.dequeue(capacity, count);
        self.first_unacknowledged = next;
        true
    }
}
