// Written by tools/erase.py from crates/net_receiver/src/finite_receiver.rt: a change here would be lost.
//! A receiver of a stream that ends.

// Why: An end in order is never refused, as in lwIP and in smoltcp's socket. Else one forged byte or end within the
// window and beyond the true end would keep a stream from ending. Bytes in order up to an end that came early
// complete the stream there: whoever forges an end within the window could forge the bytes too.
//
// It is a type of its own, with a receiver in it that is given segments cut at the end. So the bytes are that
// receiver's, whose promises hold unchanged.
//
// The rule of `keep` is a function of the receiver's numbers and the end: a type and a head lend it theirs.

use crate::storage::{ManagedSlice, Storage};
use crate::stream::finite_receiver_head::{
    acknowledged, count_below, end_or_max, known_end, NO_END,
};
use crate::stream::kept::{FiniteError, KeptBytes, SegmentParts};
use crate::stream::receiver::ReceiverOver;

/// A [`FiniteReceiver`] over any storage.
///
/// A position is the number of a byte in its stream, 64 bits. The end is the position after the last byte: QUIC's final
/// size, and the position of TCP's FIN, which needs no room. Segments may arrive in any order, the last one too.
/// `receiver` lends the receiver of the bytes, for all that isn't about the end: the queue, the window, and the waiting
/// ranges. These don't show a FIN that came early, so its sender sends it again.
///
/// ```
/// use net_base::finite::FiniteReceiverOver;
///
/// let mut receiver = FiniteReceiverOver::<_, 4>::over([0u8; 16]);
/// assert!(receiver.keep(3, b"de", true).is_ok() && receiver.end() == Some(5));
/// assert!(receiver.keep(0, b"abc", false).is_ok() && receiver.is_complete());
/// assert_eq!(receiver.acknowledged(), 6); // the FIN counts as one position
/// ```
#[derive(Clone)]
pub struct FiniteReceiverOver<S: Storage<u8>, const N: usize> {
    // Invariant: the first missing position and the end of each held run are at most the end, and below
    // `u64::MAX`, so that an end there has a number after it.
    receiver: ReceiverOver<S, N>,
    // The number after the end's, or 0 while the end isn't known.
    after_end: u64,
}

/// A `Receiver` that knows where its stream ends, once a segment has said so, by TCP's FIN or QUIC's final size. Its
/// storage is lent or owned, and its calls are those of [`FiniteReceiverOver`].
///
/// ```
/// use net_base::finite::FiniteReceiver;
///
/// let mut storage = [0u8; 16];
/// let mut receiver = FiniteReceiver::<4>::new_at(&mut storage[..], 100);
/// assert!(receiver.keep(100, b"abc", true).is_ok());
/// let mut text = [0; 9];
/// assert_eq!((receiver.read(&mut text), &text[..3], receiver.has_read_all()), (3, &b"abc"[..], true));
/// ```
pub type FiniteReceiver<'a, const N: usize = 4> = FiniteReceiverOver<ManagedSlice<'a, u8>, N>;

impl<S: Storage<u8>, const N: usize> FiniteReceiverOver<S, N> {
    /// Returns a receiver of a stream that begins at position 0: `over_at` with 0.
    ///
    /// A program in which `N` is 0 does not compile.
    #[must_use]
    pub const fn over(storage: S) -> Self {
        const { assert!(N >= 1, "N is at least 1") };
        Self::over_at(storage, 0)
    }

    /// Returns a receiver of a stream that begins at position `first`; nothing has arrived.
    ///
    /// A program in which `N` is 0 does not compile.
    ///
    /// # Panics
    ///
    /// Panics unless `first` is below `u64::MAX`: no stream can end there.
    #[must_use]
    #[track_caller]
    pub const fn over_at(storage: S, first: u64) -> Self {
        const { assert!(N >= 1, "N is at least 1") };
        assert!(first < u64::MAX, "no number is left for an end");
        FiniteReceiverOver { receiver: ReceiverOver::over_at(storage, first), after_end: 0 }
    }

    /// Returns the storage. Its contents are unspecified.
    #[must_use]
    pub fn into_storage(self) -> S {
        let FiniteReceiverOver { receiver, after_end: _ } = self;
        receiver.into_storage()
    }

    /// Lends the receiver of the bytes, to look at. Only the calls of this type keep and read bytes, so none is kept
    /// after the end.
    ///
    /// ```
    /// # use net_base::finite::FiniteReceiver;
    /// # let mut storage = [0u8; 16];
    /// # let mut receiver = FiniteReceiver::<4>::new_at(&mut storage[..], 0);
    /// assert!(receiver.keep(0, b"abc", true).is_ok());
    /// assert_eq!((receiver.receiver().queued(), receiver.receiver().window()), (3, 13));
    /// ```
    #[must_use]
    pub fn receiver(&self) -> &ReceiverOver<S, N> {
        &self.receiver
    }

    /// Begins again over the same storage: a stream that begins at position `first`; nothing has arrived.
    ///
    /// ```
    /// # use net_base::finite::FiniteReceiver;
    /// # let mut storage = [0u8; 16];
    /// # let mut receiver = FiniteReceiver::<4>::new_at(&mut storage[..], 0);
    /// assert!(receiver.keep(0, b"abc", true).is_ok());
    /// receiver.reset_at(7);
    /// assert_eq!((receiver.acknowledged(), receiver.end()), (7, None));
    /// ```
    ///
    /// # Panics
    ///
    /// Panics unless `first` is below `u64::MAX`: no stream can end there.
    #[track_caller]
    pub fn reset_at(&mut self, first: u64) {
        assert!(first < u64::MAX, "no number is left for an end");
        self.receiver.reset_at(first);
        self.after_end = 0;
    }

    /// Moves the bytes to a larger storage, and returns the old one, as `Receiver::grow` does. The end stays as it is.
    ///
    /// ```
    /// # use net_base::finite::FiniteReceiver;
    /// let mut receiver = FiniteReceiver::<4>::new_at(vec![0; 4], 0);
    /// assert!(receiver.keep(0, b"ab", false).is_ok());
    /// receiver.grow(vec![0; 16].into());
    /// assert_eq!(receiver.keep(2, b"cdefgh", true).map(|it| it.kept), Ok(6));
    /// assert_eq!((receiver.receiver().queued(), receiver.end()), (8, Some(8)));
    /// ```
    ///
    /// # Panics
    ///
    /// Panics unless `larger` is at least as long as the storage.
    #[track_caller]
    pub fn grow(&mut self, larger: S) -> S {
        assert!(larger.count() >= self.receiver().capacity(), "a smaller storage");
        self.receiver.grow(larger)
    }

    /// Returns whether the stream can end at a position. It can end at the known end alone or, while none is known,
    /// anywhere not below `next` or a waiting range's end. No stream ends at `u64::MAX`.
    ///
    /// ```
    /// # use net_base::finite::FiniteReceiver;
    /// # let mut storage = [0u8; 16];
    /// # let mut receiver = FiniteReceiver::<4>::new_at(&mut storage[..], 0);
    /// assert!(receiver.keep(2, b"cd", false).is_ok());
    /// assert!(receiver.can_end(4) && !receiver.can_end(3)); // the bytes at 2 and 3 have arrived
    /// assert!(receiver.keep(4, b"e", true).is_ok());
    /// assert!(receiver.can_end(5) && !receiver.can_end(6));
    /// ```
    #[must_use]
    pub fn can_end(&self, pos: u64) -> bool {
        match self.end() {
            Some(end) => pos == end,
            None => pos < NO_END && self.receiver.has_all_below(pos),
        }
    }

    /// Keeps the bytes of a segment that are in the free window and below the end, as `Receiver::keep` does. `fin` says
    /// whether the stream ends after the segment. It takes any position, and requires nothing: bytes too near to
    /// `u64::MAX` for an end after them are left out.
    ///
    /// A FIN at or below the end of the free window is taken. One above is left out, as the bytes there are, and the
    /// sender sends it again. A FIN without bytes at `next` is taken even if nothing is free.
    ///
    /// A FIN in order is never refused: one whose segment begins at or below `next`, and ends at or above it and within
    /// the free window, while something is missing. What waits above its end is dropped then, and another end that was
    /// known is forgotten: so the peer's true FIN is taken, whatever was forged before it. TCP wants that. A QUIC
    /// stream has one final size, so its receiver asks `can_end` first.
    ///
    /// ```
    /// # use net_base::finite::{FiniteError, FiniteReceiver};
    /// # let mut storage = [0u8; 16];
    /// # let mut receiver = FiniteReceiver::<4>::new_at(&mut storage[..], 0);
    /// assert!(receiver.keep(0, b"abc", false).is_ok());
    /// assert!(receiver.keep(9, b"forged", true).is_ok());
    /// assert_eq!(receiver.keep(4, b"e", true), Err(FiniteError::OtherEnd));
    /// assert!(receiver.keep(3, b"d", true).is_ok());
    /// assert_eq!((receiver.end(), receiver.is_complete()), (Some(4), true));
    /// ```
    ///
    /// # Errors
    ///
    /// `OtherEnd` if the segment isn't in order, and says that the stream ends where it can't (`can_end`). Else
    /// `TooManyHoles` if its bytes would make too many waiting ranges. Nothing changes then.
    ///
    /// # [Guarantees](crate#guarantees)
    ///
    /// - if `fin` and `ends_in_order(old(self), pos, pos + bytes.len())`, then `result.is_ok()`
    /// - `old(self).acknowledged() <= self.acknowledged()`
    pub fn keep(&mut self, pos: u64, bytes: &[u8], fin: bool) -> Result<KeptBytes, FiniteError> {
        self.receiver.keep_finite(&mut self.after_end, pos, bytes, fin)
    }

    /// Moves bytes from the head of the queue to the beginning of `into`, and returns how many: all that are queued, if
    /// `into` has room for them. The rest of `into` stays as it is.
    ///
    /// ```
    /// # use net_base::finite::FiniteReceiver;
    /// # let mut storage = [0u8; 16];
    /// # let mut receiver = FiniteReceiver::<4>::new_at(&mut storage[..], 0);
    /// assert!(receiver.keep(0, b"abc", true).is_ok());
    /// let mut into = *b"-----";
    /// assert_eq!((receiver.read(&mut into), &into, receiver.has_read_all()), (3, b"abc--", true));
    /// ```
    ///
    /// # [Guarantees](crate#guarantees)
    ///
    /// - `result == min(into.len(), old(self).queue.len())`
    /// - `into == old(self).queue[..into.len()] ++ old(into)[old(self).queue.len()..]`
    pub fn read(&mut self, into: &mut [u8]) -> usize {
        self.receiver.read(into)
    }

    /// Calls `f` on the first part of the queue, as `Receiver::as_slices` lends it, and returns what `f` returned. The
    /// first value of that is how many bytes to take off the queue. The part is empty only if the queue is.
    ///
    /// ```
    /// # use net_base::finite::FiniteReceiver;
    /// # let mut storage = [0u8; 16];
    /// # let mut receiver = FiniteReceiver::<4>::new_at(&mut storage[..], 0);
    /// assert!(receiver.keep(0, b"abc", true).is_ok());
    /// assert_eq!(receiver.read_with(|bytes| (2, bytes.len())), (2, 3));
    /// assert_eq!((receiver.receiver().queued(), receiver.has_read_all()), (1, false));
    /// ```
    ///
    /// # Panics
    ///
    /// Panics unless `f` returns no more than the number of bytes it was lent.
    #[track_caller]
    pub fn read_with<R, F: FnOnce(&[u8]) -> (usize, R)>(&mut self, f: F) -> (usize, R) {
        let part = self.receiver.first_slice();
        let lent = part.len();
        let answer = f(part);
        assert!(answer.0 <= lent, "more bytes than were lent");
        self.receiver.remove_part(answer.0);
        answer
    }

    /// Takes the first `count` bytes off the queue, and copies none, as `Receiver::remove` does.
    ///
    /// ```
    /// # use net_base::finite::FiniteReceiver;
    /// # let mut storage = [0u8; 16];
    /// # let mut receiver = FiniteReceiver::<4>::new_at(&mut storage[..], 0);
    /// assert!(receiver.keep(0, b"abc", false).is_ok());
    /// receiver.remove(2);
    /// assert_eq!(receiver.receiver().peek(0, 9), b"c");
    /// ```
    ///
    /// # Panics
    ///
    /// Panics unless at least `count` bytes are queued.
    #[track_caller]
    pub fn remove(&mut self, count: usize) {
        assert!(count <= self.receiver().queued(), "more bytes than are queued");
        self.receiver.remove_part(count);
    }

    /// Returns the stream's end, QUIC's final size: the position after the last byte. `None` while it isn't known.
    ///
    /// ```
    /// # use net_base::finite::FiniteReceiver;
    /// # let mut storage = [0u8; 16];
    /// # let mut receiver = FiniteReceiver::<4>::new_at(&mut storage[..], 0);
    /// assert!(receiver.keep(0, b"abc", false).is_ok() && receiver.end().is_none());
    /// assert!(receiver.keep(5, b"f", true).is_ok());
    /// assert_eq!(receiver.end(), Some(6));
    /// ```
    #[must_use]
    pub fn end(&self) -> Option<u64> {
        known_end(self.after_end)
    }

    /// Returns whether all bytes and the end have arrived. Once true it stays true, until `reset_at`.
    ///
    /// ```
    /// # use net_base::finite::FiniteReceiver;
    /// # let mut storage = [0u8; 16];
    /// # let mut receiver = FiniteReceiver::<4>::new_at(&mut storage[..], 0);
    /// assert!(receiver.keep(2, b"c", true).is_ok() && !receiver.is_complete());
    /// assert!(receiver.keep(0, b"ab", false).is_ok() && receiver.is_complete());
    /// ```
    #[must_use]
    pub fn is_complete(&self) -> bool {
        self.receiver.next() == end_or_max(self.after_end)
    }

    /// Returns the first missing position, which is at most the end. TCP acknowledges `acknowledged` instead.
    ///
    /// ```
    /// # use net_base::finite::FiniteReceiver;
    /// # let mut storage = [0u8; 16];
    /// # let mut receiver = FiniteReceiver::<4>::new_at(&mut storage[..], 0);
    /// assert!(receiver.keep(0, b"abc", true).is_ok());
    /// assert_eq!((receiver.next(), receiver.acknowledged()), (3, 4));
    /// ```
    #[must_use]
    pub fn next(&self) -> u64 {
        self.receiver.next()
    }

    /// Returns the position that TCP acknowledges: `next`, or, once all bytes and the end have arrived, the end plus 1,
    /// since the FIN counts as one position.
    ///
    /// ```
    /// # use net_base::finite::FiniteReceiver;
    /// # let mut storage = [0u8; 16];
    /// # let mut receiver = FiniteReceiver::<4>::new_at(&mut storage[..], 0);
    /// assert!(receiver.keep(0, b"abc", false).is_ok() && receiver.acknowledged() == 3);
    /// assert!(receiver.keep(3, b"", true).is_ok() && receiver.acknowledged() == 4);
    /// ```
    #[must_use]
    pub fn acknowledged(&self) -> u64 {
        acknowledged(self.receiver.next(), self.after_end)
    }

    /// Returns whether all bytes were read, up to the end. Once true it stays true, until `reset_at`.
    ///
    /// ```
    /// # use net_base::finite::FiniteReceiver;
    /// # let mut storage = [0u8; 16];
    /// # let mut receiver = FiniteReceiver::<4>::new_at(&mut storage[..], 0);
    /// assert!(receiver.keep(0, b"abc", true).is_ok() && !receiver.has_read_all());
    /// assert!(receiver.read(&mut [0; 3]) == 3 && receiver.has_read_all());
    /// ```
    #[must_use]
    pub fn has_read_all(&self) -> bool {
        self.receiver.first_unread() == end_or_max(self.after_end)
    }

    /// Returns the end of the window to announce: that of the free window, or `acknowledged` if that is greater, as
    /// when the FIN is acknowledged and the storage is full. `None` if the free window's end doesn't fit 64 bits.
    ///
    /// ```
    /// # use net_base::finite::FiniteReceiver;
    /// # let mut storage = [0u8; 3];
    /// # let mut receiver = FiniteReceiver::<4>::new_at(&mut storage[..], 0);
    /// assert!(receiver.keep(0, b"abc", false).is_ok());
    /// assert_eq!((receiver.acknowledged(), receiver.window_end()), (3, Some(3)));
    /// assert!(receiver.keep(3, b"", true).is_ok());
    /// assert_eq!((receiver.acknowledged(), receiver.window_end()), (4, Some(4)));
    /// ```
    #[must_use]
    pub fn window_end(&self) -> Option<u64> {
        let end = self.receiver.window_end()?;
        Some(end.max(self.acknowledged()))
    }

    /// Returns where the bytes of a segment of `len` bytes at `pos` are, as `Receiver::parts_of` does. Bytes at the end
    /// or above it are counted as `past_end` alone. While no end is known, those are the bytes too near to `u64::MAX`
    /// for an end after them.
    ///
    /// Ask before the segment is kept, to refuse a peer that sends bytes past the end, as QUIC wants, or past the free
    /// window.
    ///
    /// ```
    /// # use net_base::finite::FiniteReceiver;
    /// # let mut storage = [0u8; 8];
    /// # let mut receiver = FiniteReceiver::<4>::new_at(&mut storage[..], 0);
    /// assert!(receiver.keep(3, b"d", true).is_ok());
    /// let parts = receiver.parts_of(2, 9);
    /// assert_eq!((parts.in_window, parts.beyond, parts.past_end), (2, 0, 7));
    /// ```
    ///
    /// # [Guarantees](crate#guarantees)
    ///
    /// - `result.old + result.in_window + result.beyond + result.past_end == len`
    #[must_use]
    pub fn parts_of(&self, pos: u64, len: usize) -> SegmentParts {
        let below = count_below(self.after_end, pos, len);
        SegmentParts { past_end: len - below, ..self.receiver.parts_of(pos, below) }
    }

    /// Returns how many bytes of a segment of `len` bytes at `position` would be new: those in the free window, below
    /// the end, and in no waiting range. Bytes too near to `u64::MAX` for an end after them aren't counted.
    ///
    /// ```
    /// # use net_base::finite::FiniteReceiver;
    /// # let mut storage = [0u8; 16];
    /// # let mut receiver = FiniteReceiver::<4>::new_at(&mut storage[..], 0);
    /// assert!(receiver.keep(2, b"c", false).is_ok());
    /// assert_eq!((receiver.count_new(0, 4), receiver.count_new(2, 1)), (3, 0));
    /// ```
    #[must_use]
    pub fn count_new(&self, position: u64, len: usize) -> usize {
        let count = count_below(self.after_end, position, len);
        self.receiver.count_part(position, count)
    }
}
