// Written by tools/erase.py from crates/net_receiver/src/finite_sender_head.rt: a change here would be lost.
//! A sender of a stream that ends, in parts.

use crate::storage::Span;
use crate::stream::sender_head::SenderHead;

/// What a sender of a stream that ends has besides its storage: numbers.
///
/// Once it is closed nothing can be written, and the end has the number after the last byte's: it
/// is sent, reported and acknowledged as a byte is, and takes no room. smoltcp has no such type.
#[repr(C)]
#[derive(Debug, Clone, Copy)]
pub struct FiniteSenderHead {
    /// The sender of the bytes.
    pub sender: SenderHead,
    /// 1 once it is closed, 0 before.
    pub closed: u64,
    /// 1 once the end is acknowledged, 0 before.
    pub finished: u64,
    /// The number after the last one that was ever sent.
    pub sent: u64,
}

impl FiniteSenderHead {
    /// Returns the head of a sender of a stream that begins at position `first`; nothing was
    /// written. It is sound for every storage.
    ///
    /// # Requires
    ///
    /// `first` is below `u64::MAX`: an end there would have no number after it.
    pub(crate) const fn new(first: u64) -> Self {
        FiniteSenderHead { sender: SenderHead::new(first), closed: 0, finished: 0, sent: first }
    }

    /// Copies the queue to the beginning of a larger storage, for which the head then is.
    ///
    /// # Requires
    ///
    /// The head is sound for the storage, and the other one is no smaller.
    pub(crate) fn grow(&mut self, storage: &[u8], larger: &mut [u8]) {
        self.sender.grow(storage, larger);
    }

    /// Returns the first number that isn't acknowledged.
    ///
    /// # Requires
    ///
    /// It fits 64 bits, as it does where the head is sound.
    #[inline]
    pub(crate) fn first_number(&self) -> u64 {
        self.sender.first_unacknowledged + self.finished
    }

    /// Returns the number after the last byte's, and after the end's once the sender is closed.
    ///
    /// # Requires
    ///
    /// It fits 64 bits, as it does where the head is sound.
    #[inline]
    pub(crate) fn numbers_end(&self) -> u64 {
        self.sender.end() + self.closed
    }

    /// Returns how many bytes `write` would take: none once the sender is closed. The number 2^64 - 2 is
    /// kept for the end, which has one after it.
    ///
    /// # Requires
    ///
    /// The head is sound for a storage of `capacity` bytes, as in each call below that takes one.
    #[inline]
    pub(crate) fn room(&self, capacity: usize) -> usize {
        if self.closed != 0 {
            return 0;
        }
        let room = self.sender.room(capacity) as u64;
        room.min(u64::MAX - 1 - self.sender.end()) as usize
    }

    /// Enqueues the first of these bytes, as many as `room` says, and returns how many. Unless the
    /// sender is closed, an empty queue is rewound before, also for no bytes.
    #[inline]
    pub(crate) fn write(&mut self, storage: &mut [u8], bytes: &[u8]) -> usize {
        if self.closed != 0 {
            return 0;
        }
        let count = bytes.len().min(self.room(storage.len()));
        self.sender.write(storage, &bytes[..count])
    }

    /// Ends the stream after what was written. A second call changes nothing.
    #[inline]
    pub(crate) fn close(&mut self) {
        self.closed = 1;
    }

    /// Returns where the bytes of a segment from `pos` on are, none if the byte at `pos` isn't
    /// queued, and whether the segment ends the stream: the sender is closed, and the bytes end
    /// where it does. Its numbers, the end's among them, are below `limit`: the end of the window is
    /// one, and `pos` plus the segment size another. A segment at `pos` without bytes that ends the
    /// stream is the end alone.
    #[inline]
    pub(crate) fn peek_at(&self, capacity: usize, pos: u64, limit: u64) -> (Span, bool) {
        let room = limit.saturating_sub(pos).min(self.sender.place.length as u64) as usize;
        let span = self.sender.peek_at(capacity, pos, room);
        let is_last = self.ends_below(pos + span.contiguous as u64, limit);
        (span, is_last)
    }

    /// Returns whether a segment whose bytes end at `pos` ends the stream, with an end below `limit`.
    #[inline]
    fn ends_below(&self, pos: u64, limit: u64) -> bool {
        self.closed == 1 && pos == self.sender.end() && pos < limit && self.finished == 0
    }

    /// Returns what `peek_at` does, and notes that the segment was sent: `sent` is the number after
    /// its last one, the end's counted, unless that is below. It changes nothing if the segment has
    /// no number.
    #[inline]
    pub(crate) fn send_at(&mut self, capacity: usize, pos: u64, limit: u64) -> (Span, bool) {
        let (span, is_last) = self.peek_at(capacity, pos, limit);
        let count = span.contiguous as u64 + u64::from(is_last);
        if count > 0 {
            self.sent = self.sent.max(pos + count);
        }
        (span, is_last)
    }

    /// Notes that all numbers below `pos` were sent, the end's among them if `pos` is past it.
    /// Returns false, and changes nothing, if `pos` is above `numbers_end`.
    #[inline]
    pub(crate) fn mark_sent(&mut self, _capacity: usize, pos: u64) -> bool {
        if pos > self.numbers_end() {
            return false;
        }
        self.sent = pos.max(self.sent);
        true
    }

    /// Drops the bytes below `next`, and notes that the end is acknowledged if `next` is past it.
    /// Returns false, and changes nothing, if `next` is below `first_number` or above what was sent.
    #[inline]
    pub(crate) fn acknowledge(&mut self, capacity: usize, next: u64) -> bool {
        if next < self.first_number() || next > self.sent {
            return false;
        }
        let last = next.min(self.sender.end());
        self.finished = next - last;
        self.sender.acknowledge(capacity, last)
    }

    /// Returns whether the sender is closed.
    #[inline]
    pub(crate) fn is_closed(&self) -> bool {
        self.closed == 1
    }

    /// Returns whether all bytes and the end are acknowledged. Once it is so it stays so.
    #[inline]
    pub(crate) fn is_closed_and_acknowledged(&self) -> bool {
        self.finished == 1
    }
}
