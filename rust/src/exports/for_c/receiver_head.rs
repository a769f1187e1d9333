// Written by tools/erase.py from crates/net_receiver/src/receiver_head.rt: a change here would be lost.
use crate::storage::Run;
use crate::stream::receiver_head::*;

impl ReceiverHead {
    /// Returns whether this head, a storage of `capacity` bytes and runs are sound: `place` is that
    /// of a ring of the storage, whose `read_at` is `count_read` modulo the capacity; the first
    /// missing position fits 64 bits; `held` and the runs are those of an assembler without
    /// position 0; and each held position is in the free window, and the one after it fits 64 bits.
    /// It looks at each held run, and at no byte.
    pub(crate) fn is_sound(&self, capacity: usize, runs: &[Run]) -> bool {
        if !self.place.is_sound(capacity) {
            return false;
        }
        if !self.held.is_sound(runs) {
            return false;
        }
        if !self.reads_in_turn(capacity) {
            return false;
        }
        if !self.next_fits() {
            return false;
        }
        let positions = u64::MAX - self.next();
        let window = self.window(capacity);
        self.is_held_below((window as u64).min(positions), runs)
    }

    /// Returns whether the queue begins where the byte after those read has its index.
    fn reads_in_turn(&self, capacity: usize) -> bool {
        if capacity == 0 {
            return true;
        }
        self.place.read_at as u64 == self.count_read % capacity as u64
    }

    /// Returns whether the first missing position fits 64 bits.
    fn next_fits(&self) -> bool {
        let rest = u64::MAX - self.first;
        if self.count_read > rest {
            return false;
        }
        self.place.length as u64 <= rest - self.count_read
    }
}
