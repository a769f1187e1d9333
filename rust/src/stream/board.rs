// Written by tools/erase.py from crates/net_receiver/src/board.rt: a change here would be lost.
//! A scoreboard whose runs are in storage.

use crate::storage::Run;
use crate::storage::Storage;
use crate::stream::scoreboard_head::{ReportError, ScoreboardHead};
use core::mem::replace;
use core::ops::Range;

/// A `Scoreboard` whose runs are in storage: how many it can have is a number at run time. It may be 0.
#[derive(Clone)]
pub(crate) struct Board<R: Storage<Run>> {
    // Invariant: that of a `Scoreboard`.
    head: ScoreboardHead,
    runs: R,
}

impl<R: Storage<Run>> Board<R> {
    /// Returns the scoreboard of a stream that begins at position `first`, to which nothing was reported.
    pub(crate) fn over_at(runs: R, first: u64) -> Self {
        Board { head: ScoreboardHead::new_at(first), runs }
    }

    /// Returns the storage. What is in it can be any.
    pub(crate) fn into_storage(self) -> R {
        let Board { head: _, runs } = self;
        runs
    }

    /// Begins again, as `over_at` does.
    pub(crate) fn reset_at(&mut self, first: u64) {
        self.head = ScoreboardHead::new_at(first);
    }

    /// Moves the runs to a larger storage, and returns the one from before.
    pub(crate) fn grow(&mut self, mut larger: R) -> R {
        let count = larger.count();
        let to = larger.part_mut(0, count);
        self.head.move_runs(every(&self.runs), to);
        replace(&mut self.runs, larger)
    }

    /// Returns how many runs there can be.
    pub(crate) fn most_runs(&self) -> usize {
        self.runs.count()
    }

    /// Reports the positions of `range`, as `Scoreboard::report` does.
    pub(crate) fn report(&mut self, range: Range<u64>, sent: u64) -> Result<(), ReportError> {
        let count = self.runs.count();
        let runs = self.runs.part_mut(0, count);
        self.head.report(runs, range.start, range.end, sent)
    }

    /// Reports all positions below `next`.
    pub(crate) fn acknowledge(&mut self, next: u64) {
        let count = self.runs.count();
        let runs = self.runs.part_mut(0, count);
        self.head.acknowledge(runs, next);
    }

    /// Forgets the positions of `range`, as `ScoreboardHead::forget` does.
    pub(crate) fn forget(&mut self, range: Range<u64>) {
        let count = self.runs.count();
        let runs = self.runs.part_mut(0, count);
        self.head.forget(runs, range.start, range.end);
    }

    /// Returns the first position that wasn't reported.
    pub(crate) fn first_unreported(&self) -> u64 {
        self.head.first_unreported()
    }

    /// Returns whether a position was reported.
    pub(crate) fn contains(&self, pos: u64) -> bool {
        self.head.contains(every(&self.runs), pos)
    }

    /// Returns how many positions of `range` weren't reported.
    pub(crate) fn missing_between(&self, range: Range<u64>) -> u64 {
        self.head.missing_between(every(&self.runs), range.start, range.end)
    }

    /// Returns the next range that wasn't reported, as `Scoreboard::next_hole` does.
    pub(crate) fn next_hole(&self, pos: u64, limit: u64) -> Option<Range<u64>> {
        let (start, end) = self.head.next_hole(every(&self.runs), pos, limit);
        if start < end {
            Some(start..end)
        } else {
            None
        }
    }
}

/// Shows all runs of a storage.
pub(crate) fn every<R: Storage<Run>>(runs: &R) -> &[Run] {
    runs.part(0, runs.count())
}
