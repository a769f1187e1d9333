// Written by tools/erase.py from crates/net_receiver/src/stream_receiver.rt: a change here would be lost.
//! A receiver of a stream that ends, whose runs are in storage as its bytes are.

// Why: It is a type of its own, and not a parameter of `FiniteReceiverOver`. The number of runs decides what is
// refused, so contracts name it: there it is the type's `N`, and here a number of the model, `most_runs`. An array of
// runs in the value also costs no call to reach. Both types call the same functions of a head.

use crate::storage::Run;
use crate::storage::{ManagedSlice, Storage};
use crate::stream::finite_receiver_head::{count_below, known_end, FiniteReceiverHead};
use crate::stream::held_runs::HeldRunIter;
use crate::stream::kept::{FiniteError, KeptBytes, SegmentParts};
use crate::stream::receiver::whole;
use core::mem::replace;

/// A [`StreamReceiver`] over any storages.
///
/// It is a `FiniteReceiver` that can grow: its waiting ranges, which names call *runs* or *held*, are in storage too,
/// and not in an array. `grow` and `grow_runs` move bytes and ranges to larger storages as they are needed. A QUIC
/// stream may have a window of many packets, but mostly all its bytes arrive in order. A position is the number of a
/// byte in its stream, 64 bits. No call allocates. (Not in smoltcp.)
#[derive(Clone)]
pub struct StreamReceiverOver<S: Storage<u8>, R: Storage<Run>> {
    // Invariant: head, bytes and runs are sound, as `FiniteReceiverHead::is_sound` tests.
    head: FiniteReceiverHead,
    storage: S,
    runs: R,
}

/// A receiver of a stream that ends, over storages that are lent or owned. Its calls are those of
/// [`StreamReceiverOver`].
///
/// ```
/// use net_base::finite::{FiniteError, StreamReceiver};
/// use net_base::storage::Run;
///
/// let mut receiver = StreamReceiver::new_at(vec![0; 16], vec![Run::EMPTY; 1], 0);
/// assert!(receiver.keep(1, b"b", false).is_ok());
/// assert_eq!(receiver.keep(5, b"f", false), Err(FiniteError::TooManyHoles));
/// receiver.grow_runs(vec![Run::EMPTY; 64].into());
/// assert!(receiver.keep(5, b"f", true).is_ok());
/// assert_eq!(receiver.keep(0, b"abcde", false).map(|it| it.queued), Ok(6));
/// assert!(receiver.is_complete());
/// ```
pub type StreamReceiver<'a> = StreamReceiverOver<ManagedSlice<'a, u8>, ManagedSlice<'a, Run>>;

impl<S: Storage<u8>, R: Storage<Run>> StreamReceiverOver<S, R> {
    /// Returns a receiver of a stream that begins at position `first`; nothing has arrived.
    ///
    /// Its capacity is the length of `storage`. `runs` has an element for each waiting range; without any, only what
    /// comes in order is taken.
    ///
    /// ```
    /// # use net_base::finite::StreamReceiverOver;
    /// # use net_base::storage::Run;
    /// let receiver = StreamReceiverOver::over_at([0; 16], [Run::EMPTY; 3], 100);
    /// assert_eq!((receiver.next(), receiver.capacity(), receiver.most_runs()), (100, 16, 3));
    /// ```
    ///
    /// # Panics
    ///
    /// Panics unless `first` is below `u64::MAX`: no stream can end there.
    #[must_use]
    #[track_caller]
    pub const fn over_at(storage: S, runs: R, first: u64) -> Self {
        assert!(first < u64::MAX, "no number is left for an end");
        StreamReceiverOver { head: FiniteReceiverHead::new(first), storage, runs }
    }

    /// Returns both storages. Their contents are unspecified.
    ///
    /// ```
    /// # use net_base::finite::StreamReceiverOver;
    /// # use net_base::storage::Run;
    /// let receiver = StreamReceiverOver::over_at([0; 16], [Run::EMPTY; 3], 0);
    /// assert_eq!(receiver.into_storages().0, [0; 16]);
    /// ```
    #[must_use]
    pub fn into_storages(self) -> (S, R) {
        let StreamReceiverOver { head: _, storage, runs } = self;
        (storage, runs)
    }

    /// Begins again over the same storages: a receiver of a stream that begins at position `first`; nothing has
    /// arrived.
    ///
    /// ```
    /// # use net_base::finite::StreamReceiver;
    /// # use net_base::storage::Run;
    /// let mut receiver = StreamReceiver::new_at(vec![0; 4], vec![Run::EMPTY; 3], 0);
    /// assert!(receiver.keep(0, b"abc", true).is_ok());
    /// receiver.reset_at(7);
    /// assert_eq!((receiver.next(), receiver.queued(), receiver.end()), (7, 0, None));
    /// ```
    ///
    /// # Panics
    ///
    /// Panics unless `first` is below `u64::MAX`: no stream can end there.
    #[track_caller]
    pub fn reset_at(&mut self, first: u64) {
        assert!(first < u64::MAX, "no number is left for an end");
        self.head = FiniteReceiverHead::new(first);
    }

    /// Moves the bytes to a larger storage, and returns the old one, as `Receiver::grow` does.
    ///
    /// ```
    /// # use net_base::finite::StreamReceiver;
    /// # use net_base::storage::Run;
    /// let mut receiver = StreamReceiver::new_at(vec![0; 4], vec![Run::EMPTY; 3], 0);
    /// assert!(receiver.keep(3, b"d", false).is_ok());
    /// receiver.grow(vec![0; 16].into());
    /// assert_eq!((receiver.window(), receiver.keep(0, b"abc", false).map(|it| it.queued)), (16, Ok(4)));
    /// ```
    ///
    /// # Panics
    ///
    /// Panics unless `larger` has at least `capacity` bytes.
    #[track_caller]
    pub fn grow(&mut self, mut larger: S) -> S {
        assert!(larger.count() >= self.capacity(), "a smaller storage");
        let count = larger.count();
        let bytes = larger.part_mut(0, count);
        self.head.grow(whole(&self.storage), bytes);
        replace(&mut self.storage, larger)
    }

    /// Moves the waiting ranges to a larger storage, and returns the old one, whose contents are unspecified.
    ///
    /// ```
    /// # use net_base::finite::StreamReceiver;
    /// # use net_base::storage::Run;
    /// let mut receiver = StreamReceiver::new_at(vec![0; 16], vec![Run::EMPTY; 0], 0);
    /// assert!(receiver.keep(3, b"d", false).is_err());
    /// receiver.grow_runs(vec![Run::EMPTY; 8].into());
    /// assert!(receiver.keep(3, b"d", false).is_ok());
    /// ```
    ///
    /// # Panics
    ///
    /// Panics unless `more` has at least `most_runs` elements.
    #[track_caller]
    pub fn grow_runs(&mut self, mut more: R) -> R {
        assert!(more.count() >= self.most_runs(), "fewer runs");
        let count = more.count();
        let to = more.part_mut(0, count);
        self.head.move_runs(every(&self.runs), to);
        replace(&mut self.runs, more)
    }

    /// Keeps the bytes of a segment that are in the free window and below the end, as `FiniteReceiver::keep` does.
    /// Others are left out without an error. A FIN in order is taken even if another end was known. A QUIC stream has
    /// one final size, so ask `can_end` before you pass a FIN.
    ///
    /// ```
    /// # use net_base::finite::{FiniteError, StreamReceiver};
    /// # use net_base::storage::Run;
    /// let mut receiver = StreamReceiver::new_at(vec![0; 16], vec![Run::EMPTY; 3], 0);
    /// assert_eq!(receiver.keep(2, b"cd", true).map(|it| (it.kept, it.queued)), Ok((2, 0)));
    /// assert_eq!(receiver.keep(2, b"cde", true), Err(FiniteError::OtherEnd));
    /// assert_eq!(receiver.keep(0, b"ab", false).map(|it| (it.kept, it.queued)), Ok((2, 4)));
    /// ```
    ///
    /// # Errors
    ///
    /// `OtherEnd` if the segment isn't in order, and says that the stream ends where it can't (`can_end`). Else
    /// `TooManyHoles` if its bytes would make too many waiting ranges. Nothing changes then.
    pub fn keep(&mut self, pos: u64, bytes: &[u8], fin: bool) -> Result<KeptBytes, FiniteError> {
        let count = self.storage.count();
        let storage = self.storage.part_mut(0, count);
        let count = self.runs.count();
        let runs = self.runs.part_mut(0, count);
        self.head.keep(storage, runs, pos, bytes, fin)
    }

    /// Moves bytes from the head of the queue to the beginning of `into`, and returns how many: all that are queued, if
    /// `into` has room for them. The rest of `into` stays as it is.
    ///
    /// ```
    /// # use net_base::finite::StreamReceiver;
    /// # use net_base::storage::Run;
    /// let mut receiver = StreamReceiver::new_at(vec![0; 16], vec![Run::EMPTY; 3], 0);
    /// assert!(receiver.keep(0, b"abc", true).is_ok());
    /// let mut into = *b"-----";
    /// assert_eq!((receiver.read(&mut into), &into, receiver.has_read_all()), (3, b"abc--", true));
    /// ```
    pub fn read(&mut self, into: &mut [u8]) -> usize {
        self.head.read(whole(&self.storage), into)
    }

    /// Takes the first `count` bytes off the queue, as `read` does, but copies none.
    ///
    /// ```
    /// # use net_base::finite::StreamReceiver;
    /// # use net_base::storage::Run;
    /// let mut receiver = StreamReceiver::new_at(vec![0; 16], vec![Run::EMPTY; 3], 0);
    /// assert!(receiver.keep(0, b"abc", false).is_ok());
    /// receiver.remove(2);
    /// assert_eq!(receiver.as_slices().0, b"c");
    /// ```
    ///
    /// # Panics
    ///
    /// Panics unless at least `count` bytes are queued.
    #[track_caller]
    pub fn remove(&mut self, count: usize) {
        assert!(count <= self.queued(), "more bytes than are queued");
        self.head.remove(self.storage.count(), count);
    }

    /// Lends the queue, in order, in two parts. The second is empty unless the queue wraps at the storage's end.
    ///
    /// ```
    /// # use net_base::finite::StreamReceiver;
    /// # use net_base::storage::Run;
    /// let mut receiver = StreamReceiver::new_at(vec![0; 16], vec![Run::EMPTY; 3], 0);
    /// assert!(receiver.keep(0, b"abc", false).is_ok());
    /// assert_eq!(receiver.as_slices(), (&b"abc"[..], &b""[..]));
    /// ```
    #[must_use]
    pub fn as_slices(&self) -> (&[u8], &[u8]) {
        self.head.receiver.as_slices(whole(&self.storage))
    }

    /// Returns whether the stream can end at a position, as `FiniteReceiver::can_end` does.
    ///
    /// ```
    /// # use net_base::finite::StreamReceiver;
    /// # use net_base::storage::Run;
    /// let mut receiver = StreamReceiver::new_at(vec![0; 16], vec![Run::EMPTY; 3], 0);
    /// assert!(receiver.keep(2, b"cd", false).is_ok());
    /// assert!(receiver.can_end(4) && !receiver.can_end(3));
    /// ```
    #[must_use]
    pub fn can_end(&self, pos: u64) -> bool {
        self.head.can_end(every(&self.runs), pos)
    }

    /// Returns the stream's end, QUIC's final size: the position after the last byte. `None` while it isn't known.
    ///
    /// ```
    /// # use net_base::finite::StreamReceiver;
    /// # use net_base::storage::Run;
    /// let mut receiver = StreamReceiver::new_at(vec![0; 16], vec![Run::EMPTY; 3], 0);
    /// assert!(receiver.end().is_none() && receiver.keep(5, b"f", true).is_ok());
    /// assert_eq!(receiver.end(), Some(6));
    /// ```
    #[must_use]
    pub fn end(&self) -> Option<u64> {
        known_end(self.head.after_end)
    }

    /// Returns whether all bytes and the end have arrived.
    ///
    /// ```
    /// # use net_base::finite::StreamReceiver;
    /// # use net_base::storage::Run;
    /// let mut receiver = StreamReceiver::new_at(vec![0; 16], vec![Run::EMPTY; 3], 0);
    /// assert!(receiver.keep(2, b"c", true).is_ok() && !receiver.is_complete());
    /// assert!(receiver.keep(0, b"ab", false).is_ok() && receiver.is_complete());
    /// ```
    #[must_use]
    pub fn is_complete(&self) -> bool {
        self.head.is_complete()
    }

    /// Returns whether all bytes were read, up to the end.
    ///
    /// ```
    /// # use net_base::finite::StreamReceiver;
    /// # use net_base::storage::Run;
    /// let mut receiver = StreamReceiver::new_at(vec![0; 16], vec![Run::EMPTY; 3], 0);
    /// assert!(receiver.keep(0, b"abc", true).is_ok() && !receiver.has_read_all());
    /// assert!(receiver.read(&mut [0; 3]) == 3 && receiver.has_read_all());
    /// ```
    #[must_use]
    pub fn has_read_all(&self) -> bool {
        self.head.has_read_all()
    }

    /// Returns the first missing position.
    ///
    /// ```
    /// # use net_base::finite::StreamReceiver;
    /// # use net_base::storage::Run;
    /// let mut receiver = StreamReceiver::new_at(vec![0; 16], vec![Run::EMPTY; 3], 0);
    /// assert!(receiver.keep(0, b"abc", false).is_ok() && receiver.next() == 3);
    /// ```
    #[must_use]
    pub fn next(&self) -> u64 {
        self.head.receiver.next()
    }

    /// Returns how many bytes are queued: all that can be read.
    ///
    /// ```
    /// # use net_base::finite::StreamReceiver;
    /// # use net_base::storage::Run;
    /// let mut receiver = StreamReceiver::new_at(vec![0; 16], vec![Run::EMPTY; 3], 0);
    /// assert!(receiver.keep(0, b"abc", false).is_ok() && receiver.queued() == 3);
    /// ```
    #[must_use]
    pub fn queued(&self) -> usize {
        self.head.receiver.queued()
    }

    /// Returns the window: how many bytes have room after the queue, waiting ones included.
    ///
    /// ```
    /// # use net_base::finite::StreamReceiver;
    /// # use net_base::storage::Run;
    /// let mut receiver = StreamReceiver::new_at(vec![0; 16], vec![Run::EMPTY; 3], 0);
    /// assert!(receiver.keep(0, b"abc", false).is_ok() && receiver.window() == 13);
    /// ```
    #[must_use]
    pub fn window(&self) -> usize {
        self.head.receiver.window(self.storage.count())
    }

    /// Returns the end of the free window, `next` plus `window`: the first position without room, which a peer may be
    /// told. `None` if it doesn't fit 64 bits. It never falls.
    ///
    /// ```
    /// # use net_base::finite::StreamReceiver;
    /// # use net_base::storage::Run;
    /// let mut receiver = StreamReceiver::new_at(vec![0; 16], vec![Run::EMPTY; 3], 0);
    /// assert!(receiver.keep(0, b"abc", false).is_ok() && receiver.window_end() == Some(16));
    /// assert!(receiver.read(&mut [0; 3]) == 3 && receiver.window_end() == Some(19));
    /// ```
    #[must_use]
    pub fn window_end(&self) -> Option<u64> {
        self.head.receiver.window_end(self.storage.count())
    }

    /// Returns the waiting ranges as positions (start, end), the end not included, in rising order.
    ///
    /// ```
    /// # use net_base::finite::StreamReceiver;
    /// # use net_base::storage::Run;
    /// let mut receiver = StreamReceiver::new_at(vec![0; 16], vec![Run::EMPTY; 3], 0);
    /// assert!(receiver.keep(2, b"cd", false).is_ok());
    /// assert!(receiver.held().eq([(2, 4)]));
    /// ```
    #[must_use]
    pub fn held(&self) -> HeldRunIter<'_> {
        self.head.receiver.held(every(&self.runs))
    }

    /// Returns where the bytes of a segment of `len` bytes at `pos` are, as `FiniteReceiver::parts_of` does. A QUIC
    /// receiver asks before it keeps a frame: bytes `beyond` the free window, or `past_end`, are an error of its peer.
    ///
    /// ```
    /// # use net_base::finite::StreamReceiver;
    /// # use net_base::storage::Run;
    /// let mut receiver = StreamReceiver::new_at(vec![0; 8], vec![Run::EMPTY; 3], 0);
    /// assert!(receiver.keep(3, b"d", true).is_ok());
    /// let parts = receiver.parts_of(2, 9);
    /// assert_eq!((parts.in_window, parts.beyond, parts.past_end), (2, 0, 7));
    /// ```
    #[must_use]
    pub fn parts_of(&self, pos: u64, len: usize) -> SegmentParts {
        let below = count_below(self.head.after_end, pos, len);
        SegmentParts {
            past_end: len - below,
            ..self.head.receiver.parts_of(self.storage.count(), pos, below)
        }
    }

    /// Returns the storage's length: how many bytes have room, queued and waiting ones included.
    ///
    /// ```
    /// # use net_base::finite::StreamReceiver;
    /// # use net_base::storage::Run;
    /// assert_eq!(StreamReceiver::new_at(vec![0; 16], vec![Run::EMPTY; 3], 0).capacity(), 16);
    /// ```
    #[must_use]
    pub fn capacity(&self) -> usize {
        self.storage.count()
    }

    /// Returns how many ranges can wait.
    ///
    /// ```
    /// # use net_base::finite::StreamReceiver;
    /// # use net_base::storage::Run;
    /// assert_eq!(StreamReceiver::new_at(vec![0; 16], vec![Run::EMPTY; 3], 0).most_runs(), 3);
    /// ```
    #[must_use]
    pub fn most_runs(&self) -> usize {
        self.runs.count()
    }
}

/// Shows all runs of a storage.
pub(crate) fn every<R: Storage<Run>>(runs: &R) -> &[Run] {
    runs.part(0, runs.count())
}
