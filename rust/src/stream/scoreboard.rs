// Written by tools/erase.py from crates/net_receiver/src/scoreboard.rt: a change here would be lost.
//! A scoreboard: which positions a sender knows that the other end has.

use crate::storage::Run;
use crate::stream::held_runs::HeldRuns;
use crate::stream::scoreboard_head::{ReportError, ScoreboardHead};
use core::ops::Range;

/// Which bytes of its stream a sender knows to have arrived, from acknowledgements and their SACK blocks.
///
/// A position is the number of a byte in its stream, 64 bits. At most `N` ranges are stored above the first position
/// that wasn't reported. Names call such a range a *run*. What is missing before one is a hole, which `next_hole`
/// returns. Most of it may only be in flight: what is below `lost_below` is lost. When it is sent again is the caller's
/// choice. No call allocates. (Not in smoltcp, whose TCP socket sends again from the first unacknowledged position on.)
///
/// ```
/// use net_base::scoreboard::Scoreboard;
///
/// // Of the bytes from 100 to 199, all sent, those below 120 and those from 140 to 159 have arrived.
/// let mut scoreboard = Scoreboard::<4>::empty();
/// scoreboard.acknowledge(120);
/// assert_eq!(scoreboard.report(140..160, 200), Ok(()));
/// assert_eq!(scoreboard.next_hole(120, 200), Some(120..140));
/// assert_eq!(scoreboard.next_hole(140, 200), Some(160..200));
/// ```
#[derive(Clone)]
pub struct Scoreboard<const N: usize = 4> {
    // Invariant: the runs are those of an assembler, counted from the first position that wasn't
    // reported, which is in none of them. Each end fits 64 bits. If there is no run, that assembler's head
    // is 0 in both numbers.
    head: ScoreboardHead,
    runs: [Run; N],
}

impl<const N: usize> Scoreboard<N> {
    /// Returns a scoreboard of a stream that begins at position 0, of which nothing was reported.
    ///
    /// ```
    /// # use net_base::scoreboard::Scoreboard;
    /// assert!(!Scoreboard::<4>::empty().contains(0));
    /// ```
    ///
    /// ```compile_fail,E0080
    /// # use net_base::scoreboard::Scoreboard;
    /// let scoreboard = Scoreboard::<0>::empty();
    /// ```
    ///
    /// A program in which `N` is 0 does not compile.
    #[must_use]
    pub const fn empty() -> Self {
        const { assert!(N >= 1, "N is at least 1") };
        Scoreboard { head: ScoreboardHead::new(), runs: [Run { start: 0, end: 0 }; N] }
    }

    /// Returns a scoreboard of a stream that begins at position `first`, of which nothing was reported. All positions
    /// below `first` count as reported.
    ///
    /// ```
    /// # use net_base::scoreboard::Scoreboard;
    /// let scoreboard = Scoreboard::<4>::empty_at(100);
    /// assert!(scoreboard.contains(99) && !scoreboard.contains(100));
    /// ```
    ///
    /// A program in which `N` is 0 does not compile.
    #[must_use]
    pub const fn empty_at(first: u64) -> Self {
        const { assert!(N >= 1, "N is at least 1") };
        Scoreboard { head: ScoreboardHead::new_at(first), runs: [Run { start: 0, end: 0 }; N] }
    }

    /// Begins again: a stream that begins at position `first`, of which nothing was reported. All positions below
    /// `first` count as reported. A sender that forgets what was reported, as when its timer ends (RFC 2018, section
    /// 8), passes the first unacknowledged position.
    ///
    /// ```
    /// # use net_base::scoreboard::Scoreboard;
    /// # let mut scoreboard = Scoreboard::<4>::empty();
    /// assert_eq!(scoreboard.report(5..9, 20), Ok(()));
    /// scoreboard.reset_at(2);
    /// assert!(scoreboard.contains(1) && !scoreboard.contains(5));
    /// ```
    pub fn reset_at(&mut self, first: u64) {
        self.head.reset_at(first);
    }

    /// Reports the positions of `block`, as a SACK block of an acknowledgement does. Blocks may overlap. `sent` is the
    /// position after the last one that was ever sent, as `FiniteSender::sent` returns it.
    ///
    /// ```
    /// # use net_base::scoreboard::{ReportError, Scoreboard};
    /// let mut scoreboard = Scoreboard::<1>::empty();
    /// assert_eq!(scoreboard.report(5..9, 8), Err(ReportError::NoBlock));
    /// assert_eq!((scoreboard.report(5..9, 9), scoreboard.report(8..12, 20)), (Ok(()), Ok(())));
    /// assert_eq!(scoreboard.report(14..15, 20), Err(ReportError::TooManyHoles));
    /// assert!(scoreboard.contains(11) && !scoreboard.contains(14));
    /// ```
    ///
    /// # Errors
    ///
    /// `NoBlock`, and nothing changes, if no such block can be: it is empty, ends above `sent`, or begins above the
    /// first position that wasn't reported and ends 2^32 or more above it, while TCP's sequence numbers have 32 bits.
    ///
    /// Else `TooManyHoles`, and nothing changes, if the block begins above the first position that wasn't reported, and
    /// there would be more than `N` ranges above that. Its bytes are sent again then.
    ///
    /// # [Guarantees](crate#guarantees)
    ///
    /// - on `Err`: `self == old(self)`
    pub fn report(&mut self, block: Range<u64>, sent: u64) -> Result<(), ReportError> {
        self.head.report(&mut self.runs, block.start, block.end, sent)
    }

    /// Reports all positions below `next`. There is always room for that.
    ///
    /// ```
    /// # use net_base::scoreboard::Scoreboard;
    /// # let mut scoreboard = Scoreboard::<4>::empty();
    /// assert_eq!(scoreboard.report(5..9, 20), Ok(()));
    /// scoreboard.acknowledge(7);
    /// assert_eq!(scoreboard.next_hole(0, 20), Some(9..20));
    /// ```
    pub fn acknowledge(&mut self, next: u64) {
        self.head.acknowledge(&mut self.runs, next);
    }

    /// Returns the first position that wasn't reported.
    ///
    /// ```
    /// # use net_base::scoreboard::Scoreboard;
    /// # let mut scoreboard = Scoreboard::<4>::empty();
    /// scoreboard.acknowledge(7);
    /// assert_eq!((scoreboard.report(9..12, 20), scoreboard.first_unreported()), (Ok(()), 7));
    /// ```
    #[must_use]
    pub fn first_unreported(&self) -> u64 {
        self.head.first_unreported()
    }

    /// Returns whether a position was reported.
    ///
    /// ```
    /// # use net_base::scoreboard::Scoreboard;
    /// # let mut scoreboard = Scoreboard::<4>::empty();
    /// assert_eq!(scoreboard.report(5..9, 20), Ok(()));
    /// assert!(scoreboard.contains(8) && !scoreboard.contains(9));
    /// ```
    #[must_use]
    pub fn contains(&self, pos: u64) -> bool {
        self.head.contains(&self.runs, pos)
    }

    /// Returns the ranges above the first position that wasn't reported, at most `N`, as positions (start, end), the
    /// end not included, in rising order.
    ///
    /// ```
    /// # use net_base::scoreboard::Scoreboard;
    /// # let mut scoreboard = Scoreboard::<4>::empty();
    /// assert_eq!((scoreboard.report(5..9, 20), scoreboard.report(12..20, 20)), (Ok(()), Ok(())));
    /// assert!(scoreboard.reported().eq([(5, 9), (12, 20)]));
    /// ```
    #[must_use]
    pub fn reported(&self) -> HeldRuns<'_, N> {
        self.head.reported(&self.runs)
    }

    /// Returns the position after the last one that was reported; 0 if none was.
    ///
    /// ```
    /// # use net_base::scoreboard::Scoreboard;
    /// # let mut scoreboard = Scoreboard::<4>::empty();
    /// assert_eq!((scoreboard.highest_reported(), scoreboard.report(5..9, 20)), (0, Ok(())));
    /// assert_eq!(scoreboard.highest_reported(), 9);
    /// ```
    #[must_use]
    pub fn highest_reported(&self) -> u64 {
        self.head.highest_reported(&self.runs)
    }

    /// Returns how many positions of `range` weren't reported.
    ///
    /// ```
    /// # use net_base::scoreboard::Scoreboard;
    /// # let mut scoreboard = Scoreboard::<4>::empty();
    /// assert_eq!((scoreboard.report(5..9, 20), scoreboard.report(12..20, 20)), (Ok(()), Ok(())));
    /// assert_eq!(scoreboard.missing_between(6..15), 3);
    /// ```
    #[must_use]
    pub fn missing_between(&self, range: Range<u64>) -> u64 {
        self.head.missing_between(&self.runs, range.start, range.end)
    }

    /// Returns the next hole: it begins at the first position from `pos` on that wasn't reported, and ends at the next
    /// one that was, or at `limit`. `None` if there is none below `limit`. Most of these bytes may only be in flight.
    /// To get what is lost, pass `lost_below` as `limit`, and each hole's end as the next `pos`.
    ///
    /// ```
    /// # use net_base::scoreboard::Scoreboard;
    /// # let mut scoreboard = Scoreboard::<4>::empty();
    /// assert_eq!((scoreboard.report(5..9, 20), scoreboard.report(12..20, 20)), (Ok(()), Ok(())));
    /// assert_eq!(scoreboard.next_hole(6, 20), Some(9..12));
    /// assert_eq!(scoreboard.next_hole(12, 20), None);
    /// ```
    #[must_use]
    pub fn next_hole(&self, pos: u64, limit: u64) -> Option<Range<u64>> {
        let (start, end) = self.head.next_hole(&self.runs, pos, limit);
        if start < end {
            Some(start..end)
        } else {
            None
        }
    }

    /// Returns the position below which all that wasn't reported is lost, by the rule of RFC 6675, section 4: from it
    /// on `duplicates` ranges were reported (3 in TCP; 0 counts as 1), or more bytes than `duplicates - 1` segments of
    /// `segment_size` bytes have. It is 0 if nothing is lost. A range counts as above a position if it begins above it,
    /// which for a position that wasn't reported is the RFC's rule.
    ///
    /// ```
    /// # use net_base::scoreboard::Scoreboard;
    /// # let mut scoreboard = Scoreboard::<4>::empty();
    /// // Segments of 100 bytes: the first is missing, the three after it have arrived, four are in flight.
    /// assert_eq!(scoreboard.report(100..400, 800), Ok(()));
    /// let lost = scoreboard.lost_below(3, 100);
    /// assert_eq!(scoreboard.next_hole(0, lost), Some(0..100));
    /// assert_eq!(scoreboard.next_hole(100, lost), None);
    /// ```
    #[must_use]
    pub fn lost_below(&self, duplicates: usize, segment_size: usize) -> u64 {
        self.head.lost_below(&self.runs, duplicates, segment_size)
    }
}
