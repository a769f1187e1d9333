// Written by tools/erase.py from crates/net_receiver/src/finite_receiver_head.rt: a change here would be lost.
use crate::storage::Run;
use crate::stream::finite_receiver_head::*;

impl FiniteReceiverHead {
    /// Returns whether this head, a storage of `capacity` bytes and runs are sound: they are those of a receiver, and
    /// the position after its last byte, held ones too, is at most the end, if that is known, and below 2^64 - 1. It
    /// looks at each held run, and at no byte.
    pub(crate) fn is_sound(&self, capacity: usize, runs: &[Run]) -> bool {
        let end = bytes_end(self.after_end);
        self.receiver.is_sound(capacity, runs) && self.receiver.has_all_below(runs, end)
    }

    /// Returns the number that an acknowledgement carries: the first missing position, or, once all
    /// bytes and the end have arrived, the end plus 1, since the end has a number.
    ///
    /// # Requires
    ///
    /// The first missing position and the one after it fit 64 bits, as they do where head, storage
    /// and runs are sound.
    #[inline]
    pub(crate) fn acknowledged(&self) -> u64 {
        acknowledged(self.receiver.next(), self.after_end)
    }

    /// Returns the end of the window to announce, where the storage has `capacity` bytes: that of the free
    /// window, or `acknowledged` if that is greater, as where the end is acknowledged and the storage is
    /// full. `None` if the free window's end doesn't fit 64 bits.
    ///
    /// # Requires
    ///
    /// The first missing position and the one after it fit 64 bits, as they do where head, storage
    /// and runs are sound.
    #[inline]
    pub(crate) fn window_end(&self, capacity: usize) -> Option<u64> {
        let end = self.receiver.window_end(capacity)?;
        Some(end.max(self.acknowledged()))
    }
}
