// Written by tools/erase.py from crates/net_tcp/src/reported.rt: a change here would be lost.
//! What was reported, as a recovery reads it.

use net_base::internal::ScoreboardHead;
use net_base::scoreboard::Scoreboard;
use net_base::storage::Run;

/// Which positions a sender knows that the other end has: a `Scoreboard`, or a head and lent runs.
///
/// ```
/// use net_base::scoreboard::Scoreboard;
/// use net_tcp::Reported;
///
/// fn missing<B: Reported>(reported: &B) -> u64 {
///     reported.missing_between(0, 60)
/// }
///
/// let mut scoreboard = Scoreboard::<4>::empty();
/// assert_eq!(scoreboard.report(20..40, 60), Ok(()));
/// assert_eq!(missing(&scoreboard), 40);
/// ```
pub trait Reported {
    /// Returns whether a position was reported.
    fn contains(&self, pos: u64) -> bool;

    /// Returns the position after the highest that was reported.
    fn highest_reported(&self) -> u64;

    /// Returns how many positions of a range weren't reported.
    fn missing_between(&self, start: u64, end: u64) -> u64;

    /// Returns the first range from `pos` on and below `limit` that wasn't reported.
    fn next_hole(&self, pos: u64, limit: u64) -> Option<(u64, u64)>;

    /// Returns below which position all is lost that wasn't reported.
    fn lost_below(&self, duplicates: usize, segment_size: usize) -> u64;
}

impl<const N: usize> Reported for Scoreboard<N> {
    fn contains(&self, pos: u64) -> bool {
        self.contains(pos)
    }

    fn highest_reported(&self) -> u64 {
        self.highest_reported()
    }

    fn missing_between(&self, start: u64, end: u64) -> u64 {
        self.missing_between(start..end)
    }

    fn next_hole(&self, pos: u64, limit: u64) -> Option<(u64, u64)> {
        self.next_hole(pos, limit).map(|hole| (hole.start, hole.end))
    }

    fn lost_below(&self, duplicates: usize, segment_size: usize) -> u64 {
        self.lost_below(duplicates, segment_size)
    }
}

/// A scoreboard whose runs are lent, for reading.
pub(crate) struct LentScoreboard<'a> {
    head: ScoreboardHead,
    runs: &'a [Run],
}

impl<'a> LentScoreboard<'a> {
    /// Returns the scoreboard of a head and runs.
    ///
    /// # Requires
    ///
    /// They are sound, as `ScoreboardHead::is_sound` tests.
    pub(crate) fn new(head: ScoreboardHead, runs: &'a [Run]) -> Self {
        LentScoreboard { head, runs }
    }
}

impl Reported for LentScoreboard<'_> {
    fn contains(&self, pos: u64) -> bool {
        self.head.contains(self.runs, pos)
    }

    fn highest_reported(&self) -> u64 {
        self.head.highest_reported(self.runs)
    }

    fn missing_between(&self, start: u64, end: u64) -> u64 {
        self.head.missing_between(self.runs, start, end)
    }

    #[inline]
    fn next_hole(&self, pos: u64, limit: u64) -> Option<(u64, u64)> {
        let (start, end) = self.head.next_hole(self.runs, pos, limit);
        if start < end {
            Some((start, end))
        } else {
            None
        }
    }

    fn lost_below(&self, duplicates: usize, segment_size: usize) -> u64 {
        self.head.lost_below(self.runs, duplicates, segment_size)
    }
}
