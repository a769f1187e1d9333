// Written by tools/erase.py from crates/net_receiver/src/send_ranges.rt: a change here would be lost.
//! Which positions of a stream that ends are acknowledged, in flight and lost, where each range that was sent is
//! answered for by itself, as in QUIC.
//!
//! ```text
//!   acknowledged  |  acknowledged, in flight or lost  |  written, never sent
//!               first                               sent                     end
//! ```
//!
//! Two sets of numbers are kept. What is `settled` was sent, and not lost since; what of it isn't acknowledged is in
//! flight. A number that neither set has is open: below `sent` it is lost, and else it was never sent.

// Why: Where a set has no room for one more run, a range isn't added, or more is taken out. Both make more numbers
// open, and never fewer. So no number is forgotten, whatever the number of runs: at worst it is sent twice. What `next`
// returns is the first that is open, so all below it may be settled with it, which takes no run: `mark` of that is
// never refused, and a loop over `next` ends.

use crate::storage::Run;
use crate::storage::{ManagedSlice, Storage};
use crate::stream::board::Board;
use crate::stream::sent_numbers::SentNumbers;
use core::ops::Range;

/// What an acknowledgement changed.
///
/// ```
/// use net_base::finite::{Acknowledged, NotSent, SendRanges};
/// use net_base::storage::Run;
///
/// // One range can be remembered above the first position that isn't acknowledged.
/// let mut ranges = SendRanges::new_at(vec![Run::EMPTY; 1], vec![Run::EMPTY; 1], 0);
/// assert!(ranges.write(40) == 40 && ranges.mark(0..40));
/// let said = ranges.acknowledge(10..20);
/// assert_eq!(said, Ok(Acknowledged { new: 10, freed: 0, sent_again: false }));
/// // Five of these ten were known.
/// assert_eq!(ranges.acknowledge(15..25).map(|it| it.new), Ok(5));
/// let said = ranges.acknowledge(30..40);
/// assert_eq!(said, Ok(Acknowledged { new: 0, freed: 0, sent_again: true }));
/// assert_eq!(ranges.next(u64::MAX, 100), Some(30..40));
/// assert_eq!(ranges.acknowledge(0..10).map(|it| (it.new, it.freed)), Ok((10, 25)));
/// assert_eq!(ranges.acknowledge(30..41), Err(NotSent));
/// ```
#[derive(Copy, Clone, Debug, PartialEq, Eq)]
pub struct Acknowledged {
    /// How many positions of the range weren't acknowledged before, the FIN's included. It is 0 if the acknowledgement
    /// is an old one, or if the range is sent again.
    pub new: u64,
    /// By how many positions `numbers().first_unacknowledged` rose. The bytes there needn't be kept any longer. The
    /// FIN's position, which may be among them, has no byte.
    pub freed: u64,
    /// True if there was no room to remember the range. It counts as lost then: `next` returns it again, even if the
    /// stream waited only for acknowledgements. A caller whose storages can grow may call `grow_runs`, and
    /// `acknowledge` again. That doesn't help if the range ends 2^32 positions or more above the first unacknowledged
    /// one.
    pub sent_again: bool,
}

/// The acknowledged range ends above what was sent: no such packet was sent, or `mark` had another range for it.
/// Nothing changes.
///
/// ```
/// use net_base::finite::{NotSent, SendRanges};
/// use net_base::storage::Run;
///
/// let mut ranges = SendRanges::new_at(vec![Run::EMPTY; 1], vec![Run::EMPTY; 1], 0);
/// assert_eq!(ranges.acknowledge(0..1), Err(NotSent));
/// ```
#[derive(Copy, Clone, Debug, PartialEq, Eq, Hash)]
pub struct NotSent;

/// A [`SendRanges`] over any storages.
///
/// It knows which positions of a stream are acknowledged, in flight and lost; the program keeps the bytes. A position
/// is the number of a byte in its stream, 64 bits. The FIN of a closed stream has the position after the last byte's.
/// `mark`, `acknowledge` and `lose` take ranges of positions in any order. Loss detection, timers, windows and packet
/// sizes are the connection's. `next` returns what is lost, and then what was never sent. (Not in smoltcp.)
///
/// There are two storages of ranges, which names call *runs*, with room for `most_runs` each. `acknowledged` stores
/// ranges that were acknowledged out of order, and `sent` stores ranges in flight above the first lost byte. Where one
/// has no room, some positions are sent twice, but none is forgotten: each is acknowledged, in flight, or offered again
/// by `next`. With no room at all, a loss or an acknowledgement out of order loses all that was sent from there on.
///
/// Room for half as many ranges as packets sent from the first unacknowledged byte on is always enough, and mostly less
/// is. If the storages can grow, make room before the first packet is lost or is acknowledged out of order. Count the
/// calls of `lose` since `next` last returned new bytes or `None`, and grow before there are more of them than
/// `most_runs`. If `acknowledge` sets `sent_again`, grow, and call it once more.
///
/// No call allocates.
#[derive(Clone)]
pub struct SendRangesOver<R: Storage<Run>> {
    acknowledged: Board<R>,
    settled: Board<R>,
    written: u64,
    sent: u64,
    closed: bool,
}

/// Which bytes of a QUIC stream are acknowledged, in flight and lost, for a program that keeps the bytes itself. Its
/// storages are lent or owned, and its calls are those of [`SendRangesOver`].
///
/// ```
/// use net_base::finite::SendRanges;
/// use net_base::storage::Run;
///
/// // A stream of QUIC, whose bytes are kept elsewhere. Its peer's MAX_STREAM_DATA is 19, and a frame has room for
/// // 8 bytes.
/// let text = b"nineteen bytes here";
/// let mut ranges = SendRanges::new_at(vec![Run::EMPTY; 4], vec![Run::EMPTY; 4], 0);
/// assert_eq!(ranges.write(19), 19);
/// ranges.close();
/// let mut frames = Vec::new();
/// while let Some(range) = ranges.next(19, 8) {
///     let bytes = &text[range.start as usize..range.end.min(19) as usize];
///     frames.push((range.start, bytes, range.end > 19));
///     assert!(ranges.mark(range));
/// }
/// assert_eq!(frames[0], (0, &b"nineteen"[..], false));
/// assert_eq!(frames[2], (16, &b"ere"[..], true)); // range 16..20: the FIN's position is 19
/// // The packet of the first frame is lost, and those of the others are acknowledged.
/// assert!(ranges.lose(0..8));
/// assert_eq!(ranges.acknowledge(8..20).map(|it| it.new), Ok(12));
/// assert_eq!((ranges.in_flight(), ranges.next(19, 8)), (0, Some(0..8)));
/// assert!(ranges.mark(0..8));
/// assert_eq!(ranges.acknowledge(0..8).map(|it| it.freed), Ok(20));
/// assert!(ranges.is_done());
/// ```
pub type SendRanges<'a> = SendRangesOver<ManagedSlice<'a, Run>>;

impl<R: Storage<Run>> SendRangesOver<R> {
    /// Returns the ranges of a stream that begins at position `first`, to which nothing was written. `acknowledged`
    /// stores ranges that were acknowledged out of order. `sent` stores ranges in flight above the first lost byte, so
    /// it is empty until something is lost. Both have room for the same number of ranges.
    ///
    /// ```
    /// # use net_base::finite::SendRangesOver;
    /// # use net_base::storage::Run;
    /// let ranges = SendRangesOver::over_at([Run::EMPTY; 4], [Run::EMPTY; 4], 100);
    /// assert_eq!((ranges.most_runs(), ranges.numbers_end()), (4, 100));
    /// ```
    ///
    /// # Panics
    ///
    /// Panics unless both storages have the same length, which may be 0, and `first` is below
    /// `u64::MAX`: no stream can end there.
    #[must_use]
    #[track_caller]
    pub fn over_at(acknowledged: R, sent: R, first: u64) -> Self {
        assert!(sent.count() == acknowledged.count(), "two numbers of runs");
        assert!(first < u64::MAX, "no number is left for an end");
        SendRangesOver {
            acknowledged: Board::over_at(acknowledged, first),
            settled: Board::over_at(sent, first),
            written: first,
            sent: first,
            closed: false,
        }
    }

    /// Returns both storages, `acknowledged` and then `sent`. Their contents are unspecified.
    ///
    /// ```
    /// # use net_base::finite::SendRangesOver;
    /// # use net_base::storage::Run;
    /// let ranges = SendRangesOver::over_at([Run::EMPTY; 4], [Run::EMPTY; 4], 100);
    /// assert_eq!(ranges.into_storages().0.len(), 4);
    /// ```
    #[must_use]
    pub fn into_storages(self) -> (R, R) {
        let SendRangesOver { acknowledged, settled, written: _, sent: _, closed: _ } = self;
        (acknowledged.into_storage(), settled.into_storage())
    }

    /// Begins again over the same storages: a stream that begins at position `first`, to which nothing was written.
    ///
    /// ```
    /// # use net_base::finite::SendRanges;
    /// # use net_base::storage::Run;
    /// # let mut ranges = SendRanges::new_at(vec![Run::EMPTY; 4], vec![Run::EMPTY; 4], 0);
    /// assert_eq!(ranges.write(3), 3);
    /// ranges.reset_at(100);
    /// assert_eq!((ranges.numbers().sent, ranges.numbers_end()), (100, 100));
    /// ```
    ///
    /// # Panics
    ///
    /// Panics unless `first` is below `u64::MAX`: no stream can end there.
    #[track_caller]
    pub fn reset_at(&mut self, first: u64) {
        assert!(first < u64::MAX, "no number is left for an end");
        self.acknowledged.reset_at(first);
        self.settled.reset_at(first);
        self.written = first;
        self.sent = first;
        self.closed = false;
    }

    /// Moves the ranges to larger storages, and returns the old ones, whose contents are unspecified. What is
    /// acknowledged, in flight and lost stays so.
    ///
    /// ```
    /// # use net_base::finite::SendRanges;
    /// # use net_base::storage::Run;
    /// let mut ranges = SendRanges::new_at(vec![], vec![], 0);
    /// assert!(ranges.write(40) == 40 && ranges.mark(0..40));
    /// // There is no room for a range, so what is acknowledged out of order is sent again.
    /// assert!(ranges.acknowledge(8..16).is_ok_and(|it| it.sent_again) && ranges.mark(8..40));
    /// ranges.grow_runs(vec![Run::EMPTY; 4].into(), vec![Run::EMPTY; 4].into());
    /// assert_eq!(ranges.acknowledge(8..16).map(|it| it.new), Ok(8));
    /// ```
    ///
    /// # Panics
    ///
    /// Panics unless both storages have the same length, which is at least `most_runs`.
    #[track_caller]
    pub fn grow_runs(&mut self, acknowledged: R, sent: R) -> (R, R) {
        assert!(sent.count() == acknowledged.count(), "two numbers of runs");
        assert!(acknowledged.count() >= self.most_runs(), "fewer runs");
        (self.acknowledged.grow(acknowledged), self.settled.grow(sent))
    }

    /// Returns how many ranges each storage has room for.
    ///
    /// ```
    /// # use net_base::finite::SendRanges;
    /// # use net_base::storage::Run;
    /// # let ranges = SendRanges::new_at(vec![Run::EMPTY; 4], vec![Run::EMPTY; 4], 0);
    /// assert_eq!(ranges.most_runs(), 4);
    /// ```
    #[must_use]
    pub fn most_runs(&self) -> usize {
        self.acknowledged.most_runs()
    }

    /// Returns whether the stream is closed, and all its bytes and the FIN are acknowledged.
    ///
    /// ```
    /// # use net_base::finite::SendRanges;
    /// # use net_base::storage::Run;
    /// # let mut ranges = SendRanges::new_at(vec![Run::EMPTY; 4], vec![Run::EMPTY; 4], 0);
    /// assert_eq!(ranges.write(3), 3);
    /// ranges.close();
    /// assert!(ranges.mark(0..4) && !ranges.is_done());
    /// assert!(ranges.acknowledge(0..4).is_ok() && ranges.is_done());
    /// ```
    #[must_use]
    pub fn is_done(&self) -> bool {
        self.closed && self.acknowledged.first_unreported() > self.written
    }

    /// Returns whether the stream is closed: it ends after what was written.
    #[must_use]
    pub fn is_closed(&self) -> bool {
        self.closed
    }

    /// Returns the first position that isn't acknowledged, and the one after the last that was sent. A range from
    /// `next` that starts below the second is a retransmission.
    ///
    /// ```
    /// # use net_base::finite::SendRanges;
    /// # use net_base::storage::Run;
    /// # let mut ranges = SendRanges::new_at(vec![Run::EMPTY; 4], vec![Run::EMPTY; 4], 0);
    /// assert!(ranges.write(3) == 3 && ranges.mark(0..3));
    /// assert_eq!(ranges.acknowledge(0..2).map(|it| it.freed), Ok(2));
    /// assert_eq!((ranges.numbers().first_unacknowledged, ranges.numbers().sent), (2, 3));
    /// ```
    #[must_use]
    pub fn numbers(&self) -> SentNumbers {
        SentNumbers { first_unacknowledged: self.acknowledged.first_unreported(), sent: self.sent }
    }

    /// Returns how many positions are in flight: marked, not lost since, and not acknowledged. It goes once over the
    /// ranges in flight, and searches at each.
    ///
    /// ```
    /// # use net_base::finite::SendRanges;
    /// # use net_base::storage::Run;
    /// # let mut ranges = SendRanges::new_at(vec![Run::EMPTY; 4], vec![Run::EMPTY; 4], 0);
    /// assert!(ranges.write(40) == 40 && ranges.mark(0..30));
    /// assert!(ranges.acknowledge(8..16).is_ok() && ranges.lose(14..20));
    /// // 30 were sent, 8 are acknowledged, and 4 are lost.
    /// assert_eq!(ranges.in_flight(), 18);
    /// ```
    #[must_use]
    pub fn in_flight(&self) -> u64 {
        let mut pos = self.acknowledged.first_unreported();
        let mut count = 0;
        while pos < self.sent {
            let end = hole_start(&self.settled, pos, self.sent);
            count += self.acknowledged.missing_between(pos..end);
            pos = if end < self.sent { hole_end(&self.settled, end, self.sent) } else { end };
        }
        count
    }

    /// Returns the position after the last byte, or after the FIN once the stream is closed.
    #[must_use]
    pub fn numbers_end(&self) -> u64 {
        self.written + u64::from(self.closed)
    }

    /// Returns whether a range has the FIN, as a frame with the FIN bit does: the stream is closed, and the range ends
    /// above the FIN's position. Then all its other positions have bytes.
    ///
    /// ```
    /// # use net_base::finite::SendRanges;
    /// # use net_base::storage::Run;
    /// # let mut ranges = SendRanges::new_at(vec![Run::EMPTY; 4], vec![Run::EMPTY; 4], 0);
    /// assert_eq!(ranges.write(12), 12);
    /// ranges.close();
    /// assert!(!ranges.has_fin(&(0..8)) && !ranges.has_fin(&(8..12)) && ranges.has_fin(&(8..13)));
    /// ```
    #[must_use]
    pub fn has_fin(&self, range: &Range<u64>) -> bool {
        self.closed && self.written < range.end
    }

    /// Returns the position after the last byte that was sent: the final size of a stream that is reset now.
    ///
    /// ```
    /// # use net_base::finite::SendRanges;
    /// # use net_base::storage::Run;
    /// # let mut ranges = SendRanges::new_at(vec![Run::EMPTY; 4], vec![Run::EMPTY; 4], 0);
    /// assert!(ranges.write(12) == 12 && ranges.mark(0..8));
    /// assert_eq!(ranges.final_size(), 8);
    /// ranges.close();
    /// assert!(ranges.mark(8..13));
    /// assert_eq!(ranges.final_size(), 12); // the FIN is no byte
    /// ```
    #[must_use]
    pub fn final_size(&self) -> u64 {
        self.sent.min(self.written)
    }

    /// Notes that `count` bytes were written, and returns how many have positions: all that fit 64 bits, and none once
    /// the stream is closed.
    ///
    /// ```
    /// # use net_base::finite::SendRanges;
    /// # use net_base::storage::Run;
    /// # let mut ranges = SendRanges::new_at(vec![Run::EMPTY; 4], vec![Run::EMPTY; 4], 0);
    /// assert_eq!((ranges.write(60), ranges.write(4), ranges.numbers_end()), (60, 4, 64));
    /// assert_eq!(ranges.write(u64::MAX), u64::MAX - 65); // the FIN has a position too
    /// ```
    #[must_use]
    pub fn write(&mut self, count: u64) -> u64 {
        if self.closed {
            return 0;
        }
        let count = count.min(u64::MAX - 1 - self.written);
        self.written += count;
        count
    }

    /// Ends the stream after what was written.
    ///
    /// ```
    /// # use net_base::finite::SendRanges;
    /// # use net_base::storage::Run;
    /// # let mut ranges = SendRanges::new_at(vec![Run::EMPTY; 4], vec![Run::EMPTY; 4], 0);
    /// assert_eq!(ranges.write(3), 3);
    /// ranges.close();
    /// // The FIN has a position too, and nothing is written after it.
    /// assert_eq!((ranges.numbers_end(), ranges.write(1)), (4, 0));
    /// // It is sent without bytes, if they were sent before.
    /// assert!(ranges.mark(0..3));
    /// assert_eq!(ranges.next(3, 8), Some(3..4));
    /// ```
    pub fn close(&mut self) {
        self.closed = true;
    }

    /// Returns whether a position is acknowledged.
    ///
    /// ```
    /// # use net_base::finite::SendRanges;
    /// # use net_base::storage::Run;
    /// # let mut ranges = SendRanges::new_at(vec![Run::EMPTY; 4], vec![Run::EMPTY; 4], 0);
    /// assert!(ranges.write(16) == 16 && ranges.mark(0..16) && ranges.acknowledge(8..16).is_ok());
    /// assert!(!ranges.is_acknowledged(7) && ranges.is_acknowledged(8));
    /// ```
    #[must_use]
    pub fn is_acknowledged(&self, pos: u64) -> bool {
        self.acknowledged.contains(pos)
    }

    /// Returns whether a position is neither acknowledged nor in flight: it is lost, or was never sent.
    ///
    /// ```
    /// # use net_base::finite::SendRanges;
    /// # use net_base::storage::Run;
    /// # let mut ranges = SendRanges::new_at(vec![Run::EMPTY; 4], vec![Run::EMPTY; 4], 0);
    /// assert!(ranges.write(16) == 16 && ranges.mark(0..8));
    /// assert!(!ranges.is_open(0) && ranges.is_open(8));
    /// assert!(ranges.lose(0..8) && ranges.is_open(0));
    /// ```
    #[must_use]
    pub fn is_open(&self, pos: u64) -> bool {
        !self.acknowledged.contains(pos) && !self.settled.contains(pos)
    }

    /// Returns the first open number below `limit`, or one that isn't below.
    fn first_open(&self, limit: u64) -> u64 {
        let mut pos = self.settled.first_unreported();
        if pos >= self.sent {
            // Nothing is lost.
            return self.sent;
        }
        while pos < limit {
            let next = next_open(&self.acknowledged, &self.settled, pos, limit);
            if next == pos {
                return pos;
            }
            pos = next;
        }
        pos
    }

    /// Returns the range to send next: what is lost, else what was never sent. All its bytes are below `limit`, such as
    /// QUIC's MAX_STREAM_DATA, and there are at most `size` of them (one, if that is 0). `None` if nothing below the
    /// limit is lost or unsent.
    ///
    /// The FIN of a closed stream comes with the last bytes, or alone if these were sent before. It counts neither
    /// towards `size` nor towards `limit`. No range has both lost and new bytes. A loop that marks what `next` returns
    /// ends.
    ///
    /// ```
    /// # use net_base::finite::SendRanges;
    /// # use net_base::storage::Run;
    /// # let mut ranges = SendRanges::new_at(vec![Run::EMPTY; 4], vec![Run::EMPTY; 4], 0);
    /// assert_eq!(ranges.write(12), 12);
    /// let mut sent = vec![];
    /// while let Some(range) = ranges.next(10, 8) {
    ///     sent.push(range.clone());
    ///     assert!(ranges.mark(range));
    /// }
    /// assert_eq!(sent, [0..8, 8..10]);
    /// ```
    ///
    /// # [Guarantees](crate#guarantees)
    ///
    /// - on `Some(range)`: `range.start < range.end` and `range.end <= self.numbers_end()`
    /// - for each `p`: if `result == None` and `p < limit` and `p < self.numbers_end()`, then `!self.is_open(p)`
    #[must_use]
    pub fn next(&self, limit: u64, size: usize) -> Option<Range<u64>> {
        let end = self.written;
        let top = if end <= limit { self.numbers_end() } else { limit };
        let from = self.first_open(top);
        if from >= top {
            return None;
        }
        let to = self.open_end(from, top);
        Some(from..with_room(from, to, size, end))
    }

    /// Returns where the open numbers from an open one on end, that are all lost or were all never sent.
    fn open_end(&self, from: u64, top: u64) -> u64 {
        let sent = self.sent;
        if from >= sent {
            return top;
        }
        let top = sent.min(top);
        let known = hole_end(&self.acknowledged, from, top);
        hole_end(&self.settled, from, known)
    }

    /// Marks a range as sent: it is in flight, and no longer lost. Returns false, and changes nothing, if the range is
    /// empty or ends above `numbers_end`.
    ///
    /// Pass what `next` returned, or the first part of it: for that there is always room. If you mark a range above
    /// positions that were never sent, these count as lost. If there is no room for another range, what was lost or
    /// unsent stays so, and is sent again. The call doesn't report that: make room as [`SendRangesOver`] says.
    ///
    /// ```
    /// # use net_base::finite::SendRanges;
    /// # use net_base::storage::Run;
    /// # let mut ranges = SendRanges::new_at(vec![Run::EMPTY; 4], vec![Run::EMPTY; 4], 0);
    /// assert_eq!(ranges.write(3), 3);
    /// assert!(!ranges.mark(0..4)); // only 3 bytes were written
    /// assert!(!ranges.mark(2..2)); // nothing was sent
    /// assert!(ranges.mark(0..3));
    /// assert_eq!(ranges.numbers().sent, 3);
    /// ```
    ///
    /// # [Guarantees](crate#guarantees)
    ///
    /// - if `!result`, then `self == old(self)`
    /// - for each `p`: if `self.is_open(p)`, then `old(self).is_open(p)`
    #[must_use]
    pub fn mark(&mut self, range: Range<u64>) -> bool {
        if range.start >= range.end {
            return false;
        }
        if range.end > self.numbers_end() {
            return false;
        }
        let is_first = self.first_open(range.start) >= range.start;
        self.sent = self.sent.max(range.end);
        if is_first {
            self.settled.acknowledge(range.end);
        } else {
            add(&mut self.settled, range.start, range.end);
        }
        true
    }

    /// Marks a range as acknowledged, when its packet is. Whether it was in flight or lost, none of it is sent again.
    ///
    /// A range that begins above the first unacknowledged position isn't remembered if that would make more than
    /// `most_runs` ranges: it is lost then, and `sent_again` is set. The same is true of a range that ends 2^32
    /// positions or more above that first one, where growing doesn't help. An old acknowledgement is no error: `new` is
    /// 0.
    ///
    /// ```
    /// # use net_base::finite::{NotSent, SendRanges};
    /// # use net_base::storage::Run;
    /// # let mut ranges = SendRanges::new_at(vec![Run::EMPTY; 4], vec![Run::EMPTY; 4], 0);
    /// assert!(ranges.write(32) == 32 && ranges.mark(0..32));
    /// // Ranges in any order.
    /// assert_eq!(ranges.acknowledge(8..16).map(|it| (it.new, it.freed)), Ok((8, 0)));
    /// assert_eq!(ranges.acknowledge(0..8).map(|it| (it.new, it.freed)), Ok((8, 16)));
    /// assert_eq!(ranges.acknowledge(4..12).map(|it| (it.new, it.freed)), Ok((0, 0)));
    /// assert_eq!(ranges.acknowledge(30..33), Err(NotSent));
    /// ```
    ///
    /// # Errors
    ///
    /// `NotSent`, and nothing changes, if the range ends above what was sent.
    ///
    /// # [Guarantees](crate#guarantees)
    ///
    /// - `result.is_err()` exactly if `old(self).sent < range.end`
    /// - if `result.is_err()`, then `self == old(self)`
    pub fn acknowledge(&mut self, range: Range<u64>) -> Result<Acknowledged, NotSent> {
        if self.sent < range.end {
            return Err(NotSent);
        }
        if range.start >= range.end {
            return Ok(Acknowledged { new: 0, freed: 0, sent_again: false });
        }
        let first = self.acknowledged.first_unreported();
        let new = self.acknowledged.missing_between(range.start..range.end);
        if !remember(&mut self.acknowledged, range.start, range.end) {
            self.settled.forget(range);
            return Ok(Acknowledged { new: 0, freed: 0, sent_again: true });
        }
        let next = self.acknowledged.first_unreported();
        add(&mut self.settled, range.start, range.end);
        self.settled.acknowledge(next);
        Ok(Acknowledged { new, freed: next - first, sent_again: false })
    }

    /// Marks a range as lost, when loss detection says so of its packet (RFC 9002, section 6): what isn't acknowledged
    /// of it is sent again. Ranges may be lost in any order. Returns false, and changes nothing, if the range ends
    /// above what was sent.
    ///
    /// A loss in the middle of a range in flight leaves two ranges. If there is no room for one more, some of what is
    /// in flight beside it is lost too. The call doesn't report that: make room as [`SendRangesOver`] says.
    ///
    /// ```
    /// # use net_base::finite::SendRanges;
    /// # use net_base::storage::Run;
    /// # let mut ranges = SendRanges::new_at(vec![Run::EMPTY; 4], vec![Run::EMPTY; 4], 0);
    /// assert!(ranges.write(40) == 40 && ranges.mark(0..40));
    /// assert!(ranges.lose(30..40) && ranges.lose(8..16) && !ranges.lose(30..41));
    /// let range = ranges.next(u64::MAX, 100).expect("what was lost");
    /// assert!(range == (8..16) && ranges.mark(range));
    /// assert_eq!(ranges.next(u64::MAX, 100), Some(30..40));
    /// ```
    ///
    /// # [Guarantees](crate#guarantees)
    ///
    /// - if `!result`, then `self == old(self)`
    #[must_use]
    pub fn lose(&mut self, range: Range<u64>) -> bool {
        if self.sent < range.end {
            return false;
        }
        let start = range.start.max(self.acknowledged.first_unreported());
        self.settled.forget(start..range.end);
        true
    }

    /// Loses all that was sent and isn't acknowledged.
    ///
    /// ```
    /// # use net_base::finite::SendRanges;
    /// # use net_base::storage::Run;
    /// # let mut ranges = SendRanges::new_at(vec![Run::EMPTY; 4], vec![Run::EMPTY; 4], 0);
    /// assert!(ranges.write(32) == 32 && ranges.mark(0..32));
    /// assert!(ranges.acknowledge(8..16).is_ok());
    /// assert_eq!(ranges.next(u64::MAX, 100), None);
    /// ranges.lose_all();
    /// assert_eq!(ranges.next(u64::MAX, 100), Some(0..8));
    /// ```
    pub fn lose_all(&mut self) {
        self.settled.reset_at(self.acknowledged.first_unreported());
    }
}

/// Returns where a range of at most `size` bytes ends, or `to` if that isn't above. Data ends at `end`: the end's
/// number comes with the last bytes, and takes no room.
fn with_room(from: u64, to: u64, size: usize, end: u64) -> u64 {
    let most = from.saturating_add(size.max(1) as u64);
    if most == end {
        to
    } else {
        to.min(most)
    }
}

/// Adds a range that isn't empty, and returns whether there is room.
fn remember<R: Storage<Run>>(board: &mut Board<R>, start: u64, end: u64) -> bool {
    board.report(start..end, end).is_ok()
}

/// Returns the first number from `pos` on that isn't settled, or from there the first that isn't acknowledged, or one
/// that isn't below `limit`.
fn next_open<R: Storage<Run>>(
    acknowledged: &Board<R>,
    settled: &Board<R>,
    pos: u64,
    limit: u64,
) -> u64 {
    let from = hole_start(settled, pos, limit);
    hole_start(acknowledged, from, limit)
}

/// Returns the first position from `pos` on that wasn't reported, or `limit` if that isn't below.
fn hole_start<R: Storage<Run>>(board: &Board<R>, pos: u64, limit: u64) -> u64 {
    match board.next_hole(pos, limit) {
        Some(hole) => hole.start,
        None => limit,
    }
}

/// Returns the end of the hole that begins at `pos`, or `limit` if that isn't below.
fn hole_end<R: Storage<Run>>(board: &Board<R>, pos: u64, limit: u64) -> u64 {
    match board.next_hole(pos, limit) {
        Some(hole) => hole.end,
        None => limit,
    }
}

/// Adds a range, if there is room.
fn add<R: Storage<Run>>(board: &mut Board<R>, start: u64, end: u64) {
    let _ = board.report(start..end, end);
}

impl core::fmt::Display for NotSent {
    fn fmt(&self, f: &mut core::fmt::Formatter<'_>) -> core::fmt::Result {
        f.write_str("the range ends above what was sent: pass a range that was marked")
    }
}

impl core::error::Error for NotSent {}
