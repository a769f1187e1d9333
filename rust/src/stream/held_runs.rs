// Written by tools/erase.py from crates/net_receiver/src/held_runs.rt: a change here would be lost.
//! The held runs of a receiver, one after another: in rising order, and in the order in which a selective
//! acknowledgement lists them.

use crate::storage::RunIter;

/// An iterator over the waiting ranges of a receiver, made by `held`.
///
/// It yields the positions (start, end) of each range, the end not included, in rising order.
///
/// ```
/// use net_base::receiver::{HeldRunIter, Receiver};
///
/// let mut storage = [0u8; 16];
/// let mut receiver = Receiver::<4>::new(&mut storage[..]);
/// assert!(receiver.keep(2, b"c").is_ok() && receiver.keep(5, b"fg").is_ok());
/// let mut held: HeldRunIter = receiver.held();
/// assert_eq!((held.next(), held.next(), held.next()), (Some((2, 3)), Some((5, 7)), None));
/// ```
#[derive(Clone)]
pub struct HeldRunIter<'a> {
    runs: RunIter<'a>,
    from: u64,
}

/// The iterator of a `Receiver<N>`, which yields at most `N` waiting ranges.
///
/// ```
/// use net_base::receiver::{HeldRuns, Receiver};
///
/// let mut storage = [0u8; 16];
/// let mut receiver = Receiver::<4>::new(&mut storage[..]);
/// assert!(receiver.keep(2, b"c").is_ok());
/// let held: HeldRuns<'_, 4> = receiver.held();
/// assert_eq!((held.len(), receiver.held_count()), (1, 1));
/// ```
pub type HeldRuns<'a, const N: usize = 4> = HeldRunIter<'a>;

impl<'a> HeldRunIter<'a> {
    /// Returns these runs, counted from the position `from`.
    #[inline]
    pub(crate) fn over(runs: RunIter<'a>, from: u64) -> Self {
        HeldRunIter { runs, from }
    }
}

impl<'a> Iterator for HeldRunIter<'a> {
    type Item = (u64, u64);

    #[inline]
    fn next(&mut self) -> Option<(u64, u64)> {
        let (start, end) = self.runs.next()?;
        Some((self.from + start as u64, self.from + end as u64))
    }

    #[inline]
    fn size_hint(&self) -> (usize, Option<usize>) {
        self.runs.size_hint()
    }
}

/// A held run, by absolute positions: from `start` on, up to `end`, which is not included.
#[repr(C)]
#[derive(Debug, Clone, Copy, PartialEq, Eq)]
pub struct HeldRun {
    /// The first position.
    pub start: u64,
    /// The position after the last one.
    pub end: u64,
}

/// An iterator over at most `K` waiting ranges, the newest first, made by `newest_runs`.
///
/// It yields the positions (start, end) of each range, the end not included.
///
/// ```
/// use net_base::receiver::{NewestRunIter, Receiver};
///
/// let mut storage = [0u8; 16];
/// let mut receiver = Receiver::<4>::new(&mut storage[..]);
/// assert!(receiver.keep(2, b"c").is_ok() && receiver.keep(5, b"fg").is_ok());
/// let mut newest: NewestRunIter<3> = receiver.newest_runs(5, &mut [0; 3]);
/// assert_eq!((newest.next(), newest.next(), newest.next()), (Some((5, 7)), Some((2, 3)), None));
/// ```
#[derive(Clone, Debug)]
pub struct NewestRunIter<const K: usize> {
    runs: [HeldRun; K],
    from: usize,
    count: usize,
}

impl<const K: usize> NewestRunIter<K> {
    /// Returns the first `count` of these runs.
    pub(crate) fn over(runs: [HeldRun; K], count: usize) -> Self {
        NewestRunIter { runs, from: 0, count }
    }
}

impl<const K: usize> Iterator for NewestRunIter<K> {
    type Item = (u64, u64);

    #[inline]
    fn next(&mut self) -> Option<(u64, u64)> {
        if self.from >= self.count {
            return None;
        }
        let run = &self.runs[self.from];
        let item = (run.start, run.end);
        self.from += 1;
        debug_assert!(self.from <= self.count);
        Some(item)
    }

    #[inline]
    fn size_hint(&self) -> (usize, Option<usize>) {
        let runs: &[HeldRun] = &self.runs;
        let count = self.count.min(runs.len()).saturating_sub(self.from);
        (count, Some(count))
    }
}

/// Returns whether one of these runs has a position.
pub(crate) fn is_listed(listed: &[HeldRun], position: u64) -> bool {
    listed.iter().any(|run| run.start <= position && position < run.end)
}

/// Writes the starts of these runs to the beginning of `recent`, as many as it has room for.
pub(crate) fn remember(recent: &mut [u64], listed: &[HeldRun]) {
    for i in 0..listed.len().min(recent.len()) {
        let run = &listed[i];
        recent[i] = run.start;
    }
}
