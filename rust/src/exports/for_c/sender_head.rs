// Written by tools/erase.py from crates/net_receiver/src/sender_head.rt: a change here would be lost.
use crate::stream::sender_head::*;
impl SenderHead {
    /// Returns whether this head is sound for a storage of `capacity` bytes: `place` is that of a
    /// ring of as many, and the position after the queue fits 64 bits.
    pub(crate) fn is_sound(&self, capacity: usize) -> bool {
        self.place.is_sound(capacity)
            && self.place.length as u64 <= u64::MAX - self.first_unacknowledged
    }
}
