// Written by tools/erase.py from crates/net_receiver/src/finite_sender_head.rt: a change here would be lost.
use crate::stream::finite_sender_head::*;
impl FiniteSenderHead {
    /// Returns whether this head is sound for a storage of `capacity` bytes: `sender.place` is that of a ring of as
    /// many; `closed` and `finished` are 0 or 1, and `finished` is 1 only if `closed` is and the queue is empty; and
    /// `sent` is from the first number that isn't acknowledged up to the number after the last one, which fits 64 bits.
    pub(crate) fn is_sound(&self, capacity: usize) -> bool {
        if !self.sender.is_sound(capacity) || self.closed > 1 || self.finished > self.closed {
            return false;
        }
        if self.finished > 0 && self.sender.place.length > 0 {
            return false;
        }
        let end = self.sender.end();
        if end == u64::MAX {
            return false;
        }
        self.sender.first_unacknowledged + self.finished <= self.sent
            && self.sent <= end + self.closed
    }
}
