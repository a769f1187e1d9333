// Written by tools/erase.py from crates/net_receiver/src/stream_ranges.rt: a change here would be lost.
//! The ranges of a stream that have arrived, for a program that keeps the bytes itself.

// Why: A call of `keep` takes one part of a segment, and the program calls it until there is none. So the ranges change
// only with a part that the program has, and no part waits in a value that it could forget. A segment of several parts
// is the exception. Each part but a lone one joins a held run, so no refusal comes between the parts of a segment.

use crate::storage::{AssemblerHead, Run};
use crate::storage::{ManagedSlice, Storage};
use crate::stream::finite_receiver_head::{
    after_end_with, bytes_end, known_end, FiniteReceiverHead,
};
use crate::stream::held_runs::HeldRunIter;
use crate::stream::kept::FiniteError;
use crate::stream::stream_receiver::every;
use core::mem::replace;
use core::ops::Range;

/// [`StreamRanges`] over any storage.
///
/// It tells which bytes of a stream have arrived, for a program that keeps them itself, as where QUIC's frames share
/// the memory of their datagram. A position is the number of a byte in its stream, 64 bits. Store the bytes of each
/// part that `keep` returns. Those below `next`, the first missing position, can be read. Above it are waiting ranges,
/// which names call *runs* or *held*, and what is missing before one is a hole. No call allocates. (Not in smoltcp.)
///
/// It differs from a `StreamReceiver` in two ways. Bytes that arrive again never replace waiting ones, since each
/// position comes in one part alone. And a FIN that contradicts what has arrived is refused, even one in order.
#[derive(Clone)]
pub struct StreamRangesOver<R: Storage<Run>> {
    // Invariant: head and runs are sound for the capacity. Of the head's ring only the length is used.
    head: FiniteReceiverHead,
    capacity: usize,
    runs: R,
}

/// Which bytes of a stream have arrived, for a program that keeps them itself. Its storage is lent or owned, and its
/// calls are those of [`StreamRangesOver`].
///
/// ```
/// use net_base::finite::StreamRanges;
/// use net_base::storage::Run;
/// use std::collections::BTreeMap;
///
/// let mut ranges = StreamRanges::new_at(vec![Run::EMPTY; 8], 0, 1000);
/// let mut chunks = BTreeMap::new();
/// // Three frames of "stream of bytes". The second one has the first one's bytes too.
/// for (start, bytes, fin) in [(7, &b"of "[..], false), (5, &b"m of bytes"[..], true), (0, &b"stream"[..], false)] {
///     let range = start..start + bytes.len() as u64;
///     while let Some(part) = ranges.keep(range.clone(), fin)? {
///         chunks.insert(part.start, &bytes[(part.start - start) as usize..(part.end - start) as usize]);
///     }
/// }
/// assert_eq!((ranges.next(), ranges.is_complete()), (15, true));
/// assert_eq!(chunks.into_values().collect::<Vec<_>>().concat(), b"stream of bytes");
/// # Ok::<(), net_base::finite::FiniteError>(())
/// ```
pub type StreamRanges<'a> = StreamRangesOver<ManagedSlice<'a, Run>>;

impl<R: Storage<Run>> StreamRangesOver<R> {
    /// Returns the ranges of a stream that begins at position `first`; nothing has arrived.
    ///
    /// `capacity` bytes can arrive from the first unread one on. Pass `usize::MAX` if you enforce the window yourself.
    /// `runs` has an element for each waiting range; without any, only what comes in order is taken.
    ///
    /// ```
    /// # use net_base::finite::StreamRangesOver;
    /// # use net_base::storage::Run;
    /// let ranges = StreamRangesOver::over_at([Run::EMPTY; 3], 100, 16);
    /// assert_eq!((ranges.next(), ranges.capacity(), ranges.most_runs()), (100, 16, 3));
    /// ```
    ///
    /// # Panics
    ///
    /// Panics unless `first` is below `u64::MAX`: no stream can end there.
    #[must_use]
    #[track_caller]
    pub const fn over_at(runs: R, first: u64, capacity: usize) -> Self {
        assert!(first < u64::MAX, "no number is left for an end");
        StreamRangesOver { head: FiniteReceiverHead::new(first), capacity, runs }
    }

    /// Returns the storage. Its contents are unspecified.
    ///
    /// ```
    /// # use net_base::finite::StreamRangesOver;
    /// # use net_base::storage::Run;
    /// assert_eq!(StreamRangesOver::over_at([Run::EMPTY; 3], 0, 16).into_storage().len(), 3);
    /// ```
    #[must_use]
    pub fn into_storage(self) -> R {
        let StreamRangesOver { head: _, capacity: _, runs } = self;
        runs
    }

    /// Begins again, with the same storage and capacity: a stream that begins at position `first`; nothing has arrived.
    ///
    /// ```
    /// # use net_base::finite::StreamRanges;
    /// # use net_base::storage::Run;
    /// let mut ranges = StreamRanges::new_at(vec![Run::EMPTY; 3], 0, 16);
    /// assert_eq!(ranges.keep(0..3, true), Ok(Some(0..3)));
    /// ranges.reset_at(7);
    /// assert_eq!((ranges.next(), ranges.queued(), ranges.end()), (7, 0, None));
    /// ```
    ///
    /// # Panics
    ///
    /// Panics unless `first` is below `u64::MAX`: no stream can end there.
    #[track_caller]
    pub fn reset_at(&mut self, first: u64) {
        assert!(first < u64::MAX, "no number is left for an end");
        self.head = FiniteReceiverHead::new(first);
    }

    /// Sets the capacity to a larger one: so many bytes can arrive, from the first unread one on.
    ///
    /// ```
    /// # use net_base::finite::StreamRanges;
    /// # use net_base::storage::Run;
    /// let mut ranges = StreamRanges::new_at(vec![Run::EMPTY; 3], 0, 4);
    /// assert_eq!(ranges.keep(0..9, false), Ok(Some(0..4)));
    /// ranges.grow(16);
    /// assert_eq!(ranges.keep(0..9, false), Ok(Some(4..9)));
    /// ```
    ///
    /// # Panics
    ///
    /// Panics unless `larger` is at least `capacity`.
    #[track_caller]
    pub fn grow(&mut self, larger: usize) {
        assert!(larger >= self.capacity(), "a smaller capacity");
        self.capacity = larger;
    }

    /// Moves the waiting ranges to a larger storage, and returns the old one, whose contents are unspecified.
    ///
    /// ```
    /// # use net_base::finite::{FiniteError, StreamRanges};
    /// # use net_base::storage::Run;
    /// let mut ranges = StreamRanges::new_at(Vec::new(), 0, 16);
    /// assert_eq!(ranges.keep(3..4, false), Err(FiniteError::TooManyHoles));
    /// ranges.grow_runs(vec![Run::EMPTY; 8].into());
    /// assert_eq!(ranges.keep(3..4, false), Ok(Some(3..4)));
    /// ```
    ///
    /// # Panics
    ///
    /// Panics unless `more` has at least `most_runs` elements.
    #[track_caller]
    pub fn grow_runs(&mut self, mut more: R) -> R {
        assert!(more.count() >= self.most_runs(), "fewer runs");
        let count = more.count();
        let to = more.part_mut(0, count);
        self.head.move_runs(every(&self.runs), to);
        replace(&mut self.runs, more)
    }

    /// Keeps the first new part of a segment, and returns it: `None` if none of the segment is new.
    ///
    /// A position is new if it is in the free window, below the end, and in no part yet. `fin` says that the stream
    /// ends where the range ends, also if no position of the range is new. A FIN above `window_end` isn't kept, and has
    /// to come again.
    ///
    /// Call it until it returns `None`, since waiting ranges can divide the segment. Only the first of these calls can
    /// return an error. An empty or reversed range has no position.
    ///
    /// ```
    /// # use net_base::finite::{FiniteError, StreamRanges};
    /// # use net_base::storage::Run;
    /// let mut ranges = StreamRanges::new_at(vec![Run::EMPTY; 1], 0, 16);
    /// assert_eq!(ranges.keep(2..4, false), Ok(Some(2..4)));
    /// assert_eq!(ranges.keep(6..8, false), Err(FiniteError::TooManyHoles));
    /// assert_eq!(ranges.keep(0..3, true), Err(FiniteError::OtherEnd));
    /// assert_eq!(ranges.keep(0..6, true), Ok(Some(0..2)));
    /// assert_eq!(ranges.keep(0..6, true), Ok(Some(4..6)));
    /// assert_eq!((ranges.keep(0..6, true), ranges.is_complete()), (Ok(None), true));
    /// ```
    ///
    /// # Errors
    ///
    /// `OtherEnd` if the stream can't end there, as `can_end` tells. Else `TooManyHoles` if the part would make too
    /// many waiting ranges; a part that begins at `next` never does. After an error nothing has changed.
    ///
    /// # [Guarantees](crate#guarantees)
    ///
    /// - on `Err`: `self == old(self)`
    #[inline]
    pub fn keep(
        &mut self,
        range: Range<u64>,
        fin: bool,
    ) -> Result<Option<Range<u64>>, FiniteError> {
        let count = self.runs.count();
        let runs = self.runs.part_mut(0, count);
        keep_part(&mut self.head, runs, self.capacity, range, fin)
    }

    /// Counts the first `count` queued bytes as read: the program has taken them.
    ///
    /// ```
    /// # use net_base::finite::StreamRanges;
    /// # use net_base::storage::Run;
    /// let mut ranges = StreamRanges::new_at(vec![Run::EMPTY; 3], 0, 16);
    /// assert_eq!(ranges.keep(0..3, false), Ok(Some(0..3)));
    /// ranges.read(2);
    /// assert_eq!((ranges.first_unread(), ranges.queued(), ranges.window_end()), (2, 1, Some(18)));
    /// ```
    ///
    /// # Panics
    ///
    /// Panics unless at least `count` bytes are queued.
    #[inline]
    #[track_caller]
    pub fn read(&mut self, count: usize) {
        assert!(count <= self.queued(), "more bytes than are queued");
        read_queued(&mut self.head, count);
    }

    /// Returns whether the stream can end at a position. It can end at the known end alone or, while none is known,
    /// anywhere not below `next` or a waiting range's end. No stream ends at `u64::MAX`.
    ///
    /// ```
    /// # use net_base::finite::StreamRanges;
    /// # use net_base::storage::Run;
    /// let mut ranges = StreamRanges::new_at(vec![Run::EMPTY; 3], 0, 16);
    /// assert_eq!(ranges.keep(2..4, false), Ok(Some(2..4)));
    /// assert!(ranges.can_end(4) && !ranges.can_end(3));
    /// ```
    #[must_use]
    pub fn can_end(&self, pos: u64) -> bool {
        self.head.can_end(every(&self.runs), pos)
    }

    /// Returns the stream's end, QUIC's final size: the position after the last byte. `None` while it isn't known.
    ///
    /// ```
    /// # use net_base::finite::StreamRanges;
    /// # use net_base::storage::Run;
    /// let mut ranges = StreamRanges::new_at(vec![Run::EMPTY; 3], 0, 16);
    /// assert!(ranges.end().is_none() && ranges.keep(5..6, true).is_ok());
    /// assert_eq!(ranges.end(), Some(6));
    /// ```
    #[must_use]
    pub fn end(&self) -> Option<u64> {
        known_end(self.head.after_end)
    }

    /// Returns whether all bytes and the end have arrived.
    ///
    /// ```
    /// # use net_base::finite::StreamRanges;
    /// # use net_base::storage::Run;
    /// let mut ranges = StreamRanges::new_at(vec![Run::EMPTY; 3], 0, 16);
    /// assert!(ranges.keep(2..3, true).is_ok() && !ranges.is_complete());
    /// assert!(ranges.keep(0..2, false).is_ok() && ranges.is_complete());
    /// ```
    #[inline]
    #[must_use]
    pub fn is_complete(&self) -> bool {
        self.head.is_complete()
    }

    /// Returns whether all bytes were read, up to the end.
    ///
    /// ```
    /// # use net_base::finite::StreamRanges;
    /// # use net_base::storage::Run;
    /// let mut ranges = StreamRanges::new_at(vec![Run::EMPTY; 3], 0, 16);
    /// assert!(ranges.keep(0..3, true).is_ok() && !ranges.has_read_all());
    /// ranges.read(3);
    /// assert!(ranges.has_read_all());
    /// ```
    #[inline]
    #[must_use]
    pub fn has_read_all(&self) -> bool {
        self.head.has_read_all()
    }

    /// Returns the first missing position. All bytes below it have arrived.
    ///
    /// ```
    /// # use net_base::finite::StreamRanges;
    /// # use net_base::storage::Run;
    /// let mut ranges = StreamRanges::new_at(vec![Run::EMPTY; 3], 0, 16);
    /// assert!(ranges.keep(0..3, false).is_ok() && ranges.next() == 3);
    /// ```
    #[inline]
    #[must_use]
    pub fn next(&self) -> u64 {
        self.head.receiver.next()
    }

    /// Returns the position of the first byte that wasn't read.
    ///
    /// ```
    /// # use net_base::finite::StreamRanges;
    /// # use net_base::storage::Run;
    /// let mut ranges = StreamRanges::new_at(vec![Run::EMPTY; 3], 0, 16);
    /// assert!(ranges.keep(0..3, false).is_ok());
    /// ranges.read(1);
    /// assert_eq!(ranges.first_unread(), 1);
    /// ```
    #[inline]
    #[must_use]
    pub fn first_unread(&self) -> u64 {
        self.head.receiver.first + self.head.receiver.count_read
    }

    /// Returns how many bytes can be read: those from `first_unread` on and below `next`.
    ///
    /// ```
    /// # use net_base::finite::StreamRanges;
    /// # use net_base::storage::Run;
    /// let mut ranges = StreamRanges::new_at(vec![Run::EMPTY; 3], 0, 16);
    /// assert!(ranges.keep(0..3, false).is_ok() && ranges.queued() == 3);
    /// ```
    #[inline]
    #[must_use]
    pub fn queued(&self) -> usize {
        self.head.receiver.queued()
    }

    /// Returns the window: how many bytes can arrive from `next` on, waiting ones included.
    ///
    /// ```
    /// # use net_base::finite::StreamRanges;
    /// # use net_base::storage::Run;
    /// let mut ranges = StreamRanges::new_at(vec![Run::EMPTY; 3], 0, 16);
    /// assert!(ranges.keep(0..3, false).is_ok() && ranges.window() == 13);
    /// ```
    #[inline]
    #[must_use]
    pub fn window(&self) -> usize {
        self.head.receiver.window(self.capacity)
    }

    /// Returns the end of the free window, `next` plus `window`, which a peer may be told. `None` if it doesn't fit 64
    /// bits. It never falls.
    ///
    /// ```
    /// # use net_base::finite::StreamRanges;
    /// # use net_base::storage::Run;
    /// let mut ranges = StreamRanges::new_at(vec![Run::EMPTY; 3], 5, 16);
    /// assert!(ranges.keep(5..8, false).is_ok() && ranges.window_end() == Some(21));
    /// ```
    #[inline]
    #[must_use]
    pub fn window_end(&self) -> Option<u64> {
        self.head.receiver.window_end(self.capacity)
    }

    /// Returns the waiting ranges as positions (start, end), the end not included, in rising order. All are above
    /// `next`.
    ///
    /// ```
    /// # use net_base::finite::StreamRanges;
    /// # use net_base::storage::Run;
    /// let mut ranges = StreamRanges::new_at(vec![Run::EMPTY; 3], 0, 16);
    /// assert!(ranges.keep(2..4, false).is_ok());
    /// assert!(ranges.held().eq([(2, 4)]));
    /// ```
    #[must_use]
    pub fn held(&self) -> HeldRunIter<'_> {
        self.head.receiver.held(every(&self.runs))
    }

    /// Returns how many bytes can arrive from the first unread one on.
    ///
    /// ```
    /// # use net_base::finite::StreamRanges;
    /// # use net_base::storage::Run;
    /// assert_eq!(StreamRanges::new_at(vec![Run::EMPTY; 3], 0, 16).capacity(), 16);
    /// ```
    #[inline]
    #[must_use]
    pub fn capacity(&self) -> usize {
        self.capacity
    }

    /// Returns how many ranges can wait.
    ///
    /// ```
    /// # use net_base::finite::StreamRanges;
    /// # use net_base::storage::Run;
    /// assert_eq!(StreamRanges::new_at(vec![Run::EMPTY; 3], 0, 16).most_runs(), 3);
    /// ```
    #[inline]
    #[must_use]
    pub fn most_runs(&self) -> usize {
        self.runs.count()
    }
}

/// Keeps the first new part of a segment, as `StreamRangesOver::keep` does.
#[inline]
fn keep_part(
    head: &mut FiniteReceiverHead,
    runs: &mut [Run],
    capacity: usize,
    range: Range<u64>,
    fin: bool,
) -> Result<Option<Range<u64>>, FiniteError> {
    if fin && !head.can_end(runs, range.end) {
        return Err(FiniteError::OtherEnd);
    }
    keep_new(head, runs, capacity, range, fin)
}

/// Keeps the first new part of a segment after which the stream can end.
#[inline]
fn keep_new(
    head: &mut FiniteReceiverHead,
    runs: &mut [Run],
    capacity: usize,
    range: Range<u64>,
    fin: bool,
) -> Result<Option<Range<u64>>, FiniteError> {
    let after_end = after_end_with(&head.receiver, head.after_end, capacity, range.end, fin);
    let (from, to) = new_offsets(head, runs, capacity, range.start, range.end);
    if from >= to {
        head.after_end = after_end;
        return Ok(None);
    }
    let next = head.receiver.next();
    let Ok(queued) = head.receiver.held.add_then_remove_front(runs, from, to - from) else {
        return Err(FiniteError::TooManyHoles);
    };
    head.receiver.place.length += queued;
    debug_assert!(head.receiver.place.length <= capacity);
    head.after_end = after_end;
    Ok(Some(next + from as u64..next + to as u64))
}

/// Returns the first new part of a segment, as offsets from the first missing position: its end isn't above its start
/// if there is none.
#[inline]
fn new_offsets(
    head: &FiniteReceiverHead,
    runs: &[Run],
    capacity: usize,
    start: u64,
    end: u64,
) -> (usize, usize) {
    let next = head.receiver.next();
    let window = head.receiver.window(capacity);
    let from = start.saturating_sub(next).min(window as u64) as usize;
    let below = end.min(bytes_end(head.after_end));
    let to = below.saturating_sub(next).min(window as u64) as usize;
    first_hole(&head.receiver.held, runs, from, to)
}

/// Returns the first range of missing offsets from `from` on and below `to`: its end isn't above its start if there is
/// none.
#[inline]
fn first_hole(held: &AssemblerHead, runs: &[Run], from: usize, to: usize) -> (usize, usize) {
    if held.is_empty() {
        return (from, to);
    }
    let (start, end) = held.next_hole(runs, from);
    match end {
        Some(end) => (start, to.min(end)),
        None => (start, to),
    }
}

/// Takes the first `count` positions off the queue.
#[inline]
fn read_queued(head: &mut FiniteReceiverHead, count: usize) {
    head.receiver.place.length -= count;
    head.receiver.count_read += count as u64;
}
