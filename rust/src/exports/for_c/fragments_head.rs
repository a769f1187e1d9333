// Written by tools/erase.py from crates/net_base/src/storage/fragments/head.rt: a change here would be lost.
use crate::storage::fragments::head::*;
use crate::storage::Run;

impl FragmentsHead {
    /// Returns whether head and runs are those of a buffer of `capacity` bytes, for any numbers: `present` and the runs
    /// are those of an assembler, which end at `capacity` or below, and at a known size or below, which is at most
    /// `capacity`. It looks at each used run.
    pub(crate) fn is_sound(&self, capacity: usize, runs: &[Run]) -> bool {
        let limit = self.limit(capacity);
        if limit > capacity || !self.present.is_sound(runs) {
            return false;
        }
        self.is_below(runs, limit)
    }
}
