// Written by tools/erase.py from crates/net_assembler/src/assembler/head.rt: a change here would be lost.
use crate::storage::assembler::head::*;
use crate::storage::assembler::run::{end_of, start_of, Run};

impl AssemblerHead {
    /// Returns whether the head is sound with these runs, for any numbers in both: there are `used`
    /// runs, which rise, with a hole between neighbours; the first starts at 0; and each end is a
    /// `usize` with `first_start` added, too. It looks at each used run.
    pub(crate) fn is_sound(&self, runs: &[Run]) -> bool {
        if self.used > runs.len() {
            return false;
        }
        if self.used == 0 {
            return true;
        }
        let first_end = end_of(runs, 0);
        start_of(runs, 0) == 0
            && first_end > 0
            && first_end <= usize::MAX - self.first_start
            && rise_after(&runs[1..self.used], first_end, self.first_start)
    }
}

/// Returns whether runs rise, with a hole before each of them, the first of these after `after`, and
/// end at a `usize` also where they are counted from `first_start`.
fn rise_after(runs: &[Run], after: usize, first_start: usize) -> bool {
    let last = usize::MAX - first_start;
    let mut end = after;
    for k in 0..runs.len() {
        let start = start_of(runs, k);
        if start <= end {
            return false;
        }
        end = end_of(runs, k);
        if end <= start || end > last {
            return false;
        }
    }
    true
}
