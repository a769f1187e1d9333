// Written by tools/erase.py from crates/net_ring/src/head.rt: a change here would be lost.
use crate::storage::ring_head::*;
impl RingHead {
    /// Returns whether the head is that of a ring of `capacity` elements: its read index is an
    /// index of the storage, or 0, and it has no more elements than the storage.
    #[inline]
    pub(crate) fn is_sound(self, capacity: usize) -> bool {
        (self.read_at == 0 || self.read_at < capacity) && self.length <= capacity
    }
}
