// Written by tools/erase.py from crates/net_receiver/src/receiver.rt: a change here would be lost.
//! The receiver.

// Why: Runs are an array in the type, and not storage as bytes are. With 999 of them a `Receiver` has 16 KB, with 4
// 136 bytes. Runs in storage cost no instruction of a segment in order, and 3 of two that come late: `StreamReceiver`
// has them so. But here some 40 places would lend them, and some 65 clauses that name `N` would name a number of the
// model. Many runs can be `static` or boxed.
//
// A segment is taken by two calls. `segment` lists the first three held runs, as a selective acknowledgement needs
// them. `keep` lists none, for callers that list others, by `newest_runs`, or none.

use crate::storage::{ManagedSlice, Storage};
use crate::storage::{Run, TooManyHolesError};
use crate::stream::finite_receiver_head::keep_ending;
use crate::stream::held_runs::{HeldRun, HeldRuns, NewestRunIter};
use crate::stream::kept::{FiniteError, Kept, KeptBytes, SegmentParts};
use crate::stream::receiver_head::{count_existing, ReceiverHead};
use core::mem::replace;
use core::ops::Range;

/// A [`Receiver`] over any storage.
///
/// A *position* is the number of a byte in its stream, 64 bits; the first byte has position `first`. `next` is the
/// first missing position. The bytes below it that weren't read yet are queued: they can be read. The free window is
/// the positions from `next` on for which there is room, TCP's receive window. Bytes above `next` wait at their places,
/// in at most `N` *waiting ranges*, until those before them arrive. Names call a waiting range a *run*, or *held*. What
/// is missing before one is a *hole*.
///
/// ```text
/// position  first           next                             window_end
///           |  read  | queued |      |waiting|   |waiting|      |
///                    |---------------- capacity ----------------|
/// ```
///
/// The byte at position `p` has the index `(p - first) % capacity` in the storage.
///
/// No call allocates. smoltcp's TCP socket joins ring and assembler in its `process` function; this is the part of it
/// that stores what was received.
#[derive(Clone)]
pub struct ReceiverOver<S: Storage<u8>, const N: usize> {
    // Invariant: the queue is that of the ring, whose read index is the count of bytes read modulo the
    // capacity. At most N runs are held, each after the first missing position and within the free
    // window. All positions fit 64 bits.
    head: ReceiverHead,
    storage: S,
    runs: [Run; N],
}

/// Makes one stream of bytes out of segments that arrive in any order. Its storage is lent or owned, and its calls are
/// those of [`ReceiverOver`].
///
/// It is the receiving half of a TCP socket, or of any protocol that numbers the bytes of a stream.
///
/// ```
/// use net_base::receiver::Receiver;
///
/// let mut storage = [0u8; 8];
/// let mut receiver = Receiver::<4>::new_at(&mut storage[..], 100);
/// assert_eq!(receiver.keep(103, b"de").map(|it| it.queued), Ok(0));
/// assert_eq!(receiver.keep(100, b"abc").map(|it| it.queued), Ok(5));
/// let mut into = [0; 8];
/// assert_eq!((receiver.read(&mut into), &into[..5]), (5, &b"abcde"[..]));
/// ```
pub type Receiver<'a, const N: usize = 4> = ReceiverOver<ManagedSlice<'a, u8>, N>;

impl<S: Storage<u8>, const N: usize> ReceiverOver<S, N> {
    /// Returns a receiver of a stream that begins at position 0: `over_at` with 0.
    ///
    /// ```
    /// # use net_base::receiver::ReceiverOver;
    /// static RECEIVER: std::sync::Mutex<ReceiverOver<[u8; 64], 4>> =
    ///     std::sync::Mutex::new(ReceiverOver::over([0; 64]));
    /// assert!(RECEIVER.lock().unwrap().keep(0, b"abc").is_ok());
    /// ```
    ///
    /// A program in which `N` is 0 does not compile.
    #[must_use]
    pub const fn over(storage: S) -> Self {
        const { assert!(N >= 1, "N is at least 1") };
        Self::over_at(storage, 0)
    }

    /// Returns a receiver of a stream that begins at position `first`; nothing has arrived.
    ///
    /// Its capacity is the length of `storage`, which may be 0.
    ///
    /// A program in which `N` is 0 does not compile.
    #[must_use]
    pub const fn over_at(storage: S, first: u64) -> Self {
        const { assert!(N >= 1, "N is at least 1") };
        ReceiverOver {
            head: ReceiverHead::new(first),
            storage,
            runs: [Run { start: 0, end: 0 }; N],
        }
    }

    /// Returns the head, the storage and the runs, which represent the receiver. (Not in smoltcp.)
    pub(crate) fn into_parts(self) -> (ReceiverHead, S, [Run; N]) {
        let ReceiverOver { head, storage, runs } = self;
        (head, storage, runs)
    }

    /// Returns the storage. Its contents are unspecified.
    ///
    /// ```
    /// # use net_base::receiver::ReceiverOver;
    /// let mut receiver = ReceiverOver::<_, 4>::over([0u8; 16]);
    /// assert!(receiver.keep(0, b"abc").is_ok());
    /// assert_eq!(receiver.into_storage().len(), 16);
    /// ```
    #[must_use]
    pub fn into_storage(self) -> S {
        let (_head, storage, _runs) = self.into_parts();
        storage
    }

    /// Begins again over the same storage: a stream that begins at position `first`; nothing has arrived.
    ///
    /// ```
    /// # use net_base::receiver::Receiver;
    /// # let mut storage = [0u8; 16];
    /// # let mut receiver = Receiver::<4>::new(&mut storage[..]);
    /// assert!(receiver.keep(0, b"abc").is_ok());
    /// receiver.reset_at(7);
    /// assert_eq!((receiver.next(), receiver.queued()), (7, 0));
    /// ```
    pub fn reset_at(&mut self, first: u64) {
        self.head.reset_at(first);
    }

    /// Moves the bytes to a larger storage, and returns the old one, whose contents are unspecified. What is queued or
    /// waits stays at its positions. The window grows by as much as the storage does.
    ///
    /// So a receiver can begin small, and a window that TCP or QUIC raises later costs memory only then. Each byte of
    /// the old storage is copied once.
    ///
    /// ```
    /// # use net_base::receiver::Receiver;
    /// let mut receiver = Receiver::<4>::new(vec![0; 4]);
    /// assert!(receiver.keep(0, b"ab").is_ok() && receiver.keep(3, b"d").is_ok());
    /// assert_eq!(receiver.window_end(), Some(4));
    /// receiver.grow(vec![0; 16].into());
    /// assert_eq!((receiver.queued(), receiver.window(), receiver.window_end()), (2, 14, Some(16)));
    /// assert!(receiver.held().eq([(3, 4)]));
    /// assert_eq!(receiver.keep(2, b"c").map(|it| it.queued), Ok(2));
    /// ```
    ///
    /// # Panics
    ///
    /// Panics unless `larger` has at least `capacity` bytes.
    ///
    /// # [Guarantees](crate#guarantees)
    ///
    /// - `self.next() == old(self).next()`
    #[track_caller]
    pub fn grow(&mut self, mut larger: S) -> S {
        assert!(larger.count() >= self.capacity(), "a smaller storage");
        let count = larger.count();
        let bytes = larger.part_mut(0, count);
        self.head.grow(whole(&self.storage), bytes);
        replace(&mut self.storage, larger)
    }

    /// Returns whether `pos + len` fits `u64`, as `segment` requires for a segment of `len` bytes.
    ///
    /// ```
    /// # use net_base::receiver::Receiver;
    /// assert!(Receiver::<4>::fits(u64::MAX - 2, 2) && !Receiver::<4>::fits(u64::MAX - 2, 3));
    /// ```
    #[must_use]
    pub const fn fits(pos: u64, len: usize) -> bool {
        len as u64 <= u64::MAX - pos
    }

    /// Keeps the bytes of a segment as `keep` does, and also lists the first three waiting ranges, in rising order. It
    /// panics unless the segment `fits`: for bytes from a packet take `keep`, which requires nothing. TCP's SACK blocks
    /// begin with the newest range, as `newest_runs` does.
    ///
    /// ```
    /// # use net_base::receiver::Receiver;
    /// # use net_base::storage::TooManyHolesError;
    /// let mut storage = [0u8; 16];
    /// let mut receiver = Receiver::<1>::new(&mut storage[..]);
    /// assert_eq!(receiver.segment(4, b"e").map(|it| it.sack), Ok([Some((4, 5)), None, None]));
    /// assert_eq!(receiver.segment(6, b"g"), Err(TooManyHolesError));
    /// assert_eq!(receiver.segment(0, b"abcd").map(|it| it.queued), Ok(5));
    /// ```
    ///
    /// # Errors
    ///
    /// `TooManyHolesError`, and nothing changes, if the kept bytes begin above `next` and would make more than `N`
    /// waiting ranges. So a segment that begins at or below `next` is never refused, and its kept bytes join the queue.
    ///
    /// # Panics
    ///
    /// Panics unless the segment ends within 64 bits, as `fits` tests.
    ///
    /// # [Guarantees](crate#guarantees)
    ///
    /// - on `Err`: `self == old(self)`
    /// - on `Ok(it)`: `self.next() == old(self).next() + it.queued`
    /// - if `pos <= old(self).next()`, then `result.is_ok()`
    // Inlined, so that a caller that doesn't look at `sack` doesn't pay for it.
    #[inline(always)]
    #[track_caller]
    pub fn segment(&mut self, pos: u64, bytes: &[u8]) -> Result<Kept, TooManyHolesError> {
        assert!(Self::fits(pos, bytes.len()), "the segment's end is above `u64::MAX`");
        let bytes = self.keep_part(pos, bytes)?;
        let sack = self.first_runs();
        Ok(Kept { kept: bytes.kept, queued: bytes.queued, sack })
    }

    /// Returns the first three held runs.
    #[inline(always)]
    fn first_runs(&self) -> [Option<(u64, u64)>; 3] {
        self.head.first_runs(&self.runs)
    }

    /// Keeps the bytes of a segment that are in the free window: from `next` on, and below `next` plus `window`. This
    /// is the call for bytes from a packet: it takes any position, and requires nothing. `segment` also lists waiting
    /// ranges.
    ///
    /// Waiting bytes at the same positions are overwritten. All bytes that are then contiguous from `next` on join the
    /// queue. If no byte is in the window, nothing changes. Bytes at position `u64::MAX` or above are dropped, since no
    /// stream has any there.
    ///
    /// ```
    /// # use net_base::receiver::Receiver;
    /// let mut storage = [0u8; 16];
    /// let mut receiver = Receiver::<4>::new(&mut storage[..]);
    /// assert_eq!(receiver.keep(2, b"cd").map(|it| (it.kept, it.queued)), Ok((2, 0)));
    /// assert_eq!(receiver.keep(0, b"ab").map(|it| (it.kept, it.queued)), Ok((2, 4)));
    /// ```
    ///
    /// # Errors
    ///
    /// `TooManyHolesError`, and nothing changes, if the kept bytes begin above `next` and would make more than `N`
    /// waiting ranges.
    ///
    /// # [Guarantees](crate#guarantees)
    ///
    /// - on `Err`: `self == old(self)`
    /// - on `Ok(it)`: `self.next() == old(self).next() + it.queued`
    /// - if `pos <= old(self).next()`, then `result.is_ok()`
    #[inline]
    pub fn keep(&mut self, pos: u64, bytes: &[u8]) -> Result<KeptBytes, TooManyHolesError> {
        self.keep_part(pos, existing(pos, bytes))
    }

    /// Keeps a segment that ends within 64 bits.
    #[inline]
    pub(crate) fn keep_part(
        &mut self,
        pos: u64,
        bytes: &[u8],
    ) -> Result<KeptBytes, TooManyHolesError> {
        let count = self.storage.count();
        let storage = self.storage.part_mut(0, count);
        self.head.keep(storage, &mut self.runs, pos, bytes)
    }

    /// Keeps a segment of a stream that ends, as `FiniteReceiverHead::keep` does. `after_end` is the number after the
    /// end's, or 0 while the end isn't known.
    #[inline]
    pub(crate) fn keep_finite(
        &mut self,
        after_end: &mut u64,
        pos: u64,
        bytes: &[u8],
        is_last: bool,
    ) -> Result<KeptBytes, FiniteError> {
        let count = self.storage.count();
        let storage = self.storage.part_mut(0, count);
        keep_ending(&mut self.head, after_end, storage, &mut self.runs, pos, bytes, is_last)
    }

    /// Moves bytes from the head of the queue to the beginning of `into`, and returns how many: all that are queued, if
    /// `into` has room for them. The rest of `into` stays as it is.
    ///
    /// ```
    /// # use net_base::receiver::Receiver;
    /// # let mut storage = [0u8; 16];
    /// # let mut receiver = Receiver::<4>::new(&mut storage[..]);
    /// assert!(receiver.keep(0, b"abc").is_ok());
    /// let mut into = *b"--";
    /// assert_eq!((receiver.read(&mut into), &into, receiver.queued()), (2, b"ab", 1));
    /// ```
    ///
    /// # [Guarantees](crate#guarantees)
    ///
    /// - `result == min(into.len(), old(self).queued())`
    /// - `into == old(self).queue[..into.len()] ++ old(into)[old(self).queued()..]`
    /// - `self.next() == old(self).next()`
    pub fn read(&mut self, into: &mut [u8]) -> usize {
        self.head.read(whole(&self.storage), into)
    }

    /// Copies bytes from the head of the queue to the beginning of `into`, and returns how many, as `read` does, but
    /// leaves them in the queue. The rest of `into` stays as it is.
    ///
    /// ```
    /// # use net_base::receiver::Receiver;
    /// # let mut storage = [0u8; 16];
    /// # let mut receiver = Receiver::<4>::new(&mut storage[..]);
    /// assert!(receiver.keep(0, b"abc").is_ok());
    /// let mut into = *b"--";
    /// assert_eq!((receiver.peek_slice(&mut into), &into, receiver.queued()), (2, b"ab", 3));
    /// ```
    ///
    /// # [Guarantees](crate#guarantees)
    ///
    /// - `result == min(into.len(), self.queued())`
    /// - `into == self.queue[..into.len()] ++ old(into)[self.queued()..]`
    pub fn peek_slice(&self, into: &mut [u8]) -> usize {
        self.head.peek_slice(whole(&self.storage), into)
    }

    /// Lends at most `size` queued bytes from index `offset` of the queue on, up to the end of the queue or of the
    /// storage. The slice is empty only if `size` is 0 or `offset` isn't below `queued`.
    ///
    /// smoltcp's `peek` lends from the head on.
    ///
    /// ```
    /// # use net_base::receiver::Receiver;
    /// # let mut storage = [0u8; 16];
    /// # let mut receiver = Receiver::<4>::new(&mut storage[..]);
    /// assert!(receiver.keep(0, b"abc").is_ok());
    /// assert_eq!(receiver.peek(1, 9), b"bc");
    /// ```
    ///
    /// # [Guarantees](crate#guarantees)
    ///
    /// - if `offset < self.queued()` and `0 < size`, then `0 < result.len()`
    /// - `result == self.queue[offset..][..result.len()]`
    #[must_use]
    pub fn peek(&self, offset: usize, size: usize) -> &[u8] {
        self.head.peek(whole(&self.storage), offset, size)
    }

    /// Lends the queue, in order, in two parts: the bytes up to the storage's end, and those from its beginning on. The
    /// second part is empty unless the queue wraps.
    ///
    /// (Not in smoltcp; std's `VecDeque` has it.)
    ///
    /// ```
    /// # use net_base::receiver::Receiver;
    /// # let mut storage = [0u8; 4];
    /// # let mut receiver = Receiver::<4>::new(&mut storage[..]);
    /// assert!(receiver.keep(0, b"abc").is_ok());
    /// assert_eq!(receiver.read(&mut [0; 2]), 2);
    /// assert!(receiver.keep(3, b"def").is_ok());
    /// assert_eq!(receiver.as_slices(), (&b"cd"[..], &b"ef"[..]));
    /// ```
    ///
    /// # [Guarantees](crate#guarantees)
    ///
    /// - `result.0 ++ result.1 == self.queue`
    #[must_use]
    pub fn as_slices(&self) -> (&[u8], &[u8]) {
        self.head.as_slices(whole(&self.storage))
    }

    /// Calls `f` on the first part of the queue, as `as_slices` lends it, and returns what `f` returned. The first
    /// value of that is how many bytes to take off the queue. The part is empty only if the queue is.
    ///
    /// smoltcp's `recv` lends the bytes for writing too.
    ///
    /// ```
    /// # use net_base::receiver::Receiver;
    /// # let mut storage = [0u8; 16];
    /// # let mut receiver = Receiver::<4>::new(&mut storage[..]);
    /// assert!(receiver.keep(0, b"abc").is_ok());
    /// assert_eq!(receiver.read_with(|bytes| (2, bytes.len())), (2, 3));
    /// assert_eq!(receiver.peek(0, 9), b"c");
    /// ```
    ///
    /// # Panics
    ///
    /// Panics unless `f` returns no more than the number of bytes it was lent.
    #[track_caller]
    pub fn read_with<R, F: FnOnce(&[u8]) -> (usize, R)>(&mut self, f: F) -> (usize, R) {
        let part = self.first_slice();
        let lent = part.len();
        let answer = f(part);
        assert!(answer.0 <= lent, "more bytes than were lent");
        self.head.remove(self.storage.count(), answer.0);
        answer
    }

    /// Takes the first `count` bytes off the queue, as `read` does, but copies none. `peek` and `as_slices` lend them
    /// before.
    ///
    /// ```
    /// # use net_base::receiver::Receiver;
    /// # let mut storage = [0u8; 16];
    /// # let mut receiver = Receiver::<4>::new(&mut storage[..]);
    /// assert!(receiver.keep(0, b"abc").is_ok());
    /// receiver.remove(2);
    /// assert_eq!((receiver.peek(0, 9), receiver.next()), (&b"c"[..], 3));
    /// ```
    ///
    /// # Panics
    ///
    /// Panics unless at least `count` bytes are queued.
    ///
    /// # [Guarantees](crate#guarantees)
    ///
    /// - `self.next() == old(self).next()`
    #[track_caller]
    pub fn remove(&mut self, count: usize) {
        assert!(count <= self.queued(), "more bytes than are queued");
        self.head.remove(self.storage.count(), count);
    }

    /// Takes bytes off the queue that are there.
    pub(crate) fn remove_part(&mut self, count: usize) {
        self.head.remove(self.storage.count(), count);
    }

    /// Shows the first part of the queue, which is empty only if the queue is.
    pub(crate) fn first_slice(&self) -> &[u8] {
        self.head.peek(whole(&self.storage), 0, self.head.queued())
    }

    /// Returns the first missing position. All bytes below it have arrived.
    ///
    /// ```
    /// # use net_base::receiver::Receiver;
    /// # let mut storage = [0u8; 16];
    /// # let mut receiver = Receiver::<4>::new(&mut storage[..]);
    /// assert!(receiver.keep(0, b"abc").is_ok());
    /// assert_eq!(receiver.next(), 3);
    /// ```
    #[must_use]
    pub fn next(&self) -> u64 {
        self.head.next()
    }

    /// Returns how many bytes are queued: all that can be read.
    ///
    /// ```
    /// # use net_base::receiver::Receiver;
    /// # let mut storage = [0u8; 16];
    /// # let mut receiver = Receiver::<4>::new(&mut storage[..]);
    /// assert!(receiver.keep(0, b"abc").is_ok());
    /// assert_eq!(receiver.queued(), 3);
    /// ```
    #[must_use]
    pub fn queued(&self) -> usize {
        self.head.queued()
    }

    /// Returns the window: how many bytes have room after the queue, waiting ones included. `queued` and `window`
    /// together are the capacity.
    ///
    /// ```
    /// # use net_base::receiver::Receiver;
    /// # let mut storage = [0u8; 16];
    /// # let mut receiver = Receiver::<4>::new(&mut storage[..]);
    /// assert!(receiver.keep(0, b"abc").is_ok());
    /// assert_eq!(receiver.window(), 13);
    /// ```
    #[must_use]
    pub fn window(&self) -> usize {
        self.head.window(self.storage.count())
    }

    /// Returns the end of the free window, `next` plus `window`: the first position without room. `None` if it doesn't
    /// fit 64 bits. It never falls.
    ///
    /// ```
    /// # use net_base::receiver::Receiver;
    /// # let mut storage = [0u8; 16];
    /// # let mut receiver = Receiver::<4>::new_at(&mut storage[..], 100);
    /// assert!(receiver.keep(100, b"abc").is_ok());
    /// assert_eq!(receiver.window_end(), Some(116));
    /// assert_eq!(receiver.read(&mut [0; 3]), 3);
    /// assert_eq!(receiver.window_end(), Some(119));
    /// ```
    #[must_use]
    pub fn window_end(&self) -> Option<u64> {
        self.head.window_end(self.storage.count())
    }

    /// Returns the storage's length: how many bytes have room, queued and waiting ones included.
    ///
    /// ```
    /// # use net_base::receiver::Receiver;
    /// let mut storage = [0u8; 16];
    /// assert_eq!(Receiver::<4>::new(&mut storage[..]).capacity(), 16);
    /// ```
    #[must_use]
    pub fn capacity(&self) -> usize {
        self.storage.count()
    }

    /// Returns whether no byte is queued. Bytes may wait above `next`.
    ///
    /// ```
    /// # use net_base::receiver::Receiver;
    /// # let mut storage = [0u8; 16];
    /// # let mut receiver = Receiver::<4>::new(&mut storage[..]);
    /// assert!(receiver.keep(1, b"b").is_ok());
    /// assert!(receiver.is_empty());
    /// ```
    #[must_use]
    pub fn is_empty(&self) -> bool {
        self.queued() == 0
    }

    /// Returns the waiting ranges, at most `N`, as positions (start, end), the end not included, in rising order. Each
    /// begins above `next`, and ends within the free window. `newest_runs` lists them in the order of a selective
    /// acknowledgement.
    ///
    /// ```
    /// # use net_base::receiver::Receiver;
    /// # let mut storage = [0u8; 16];
    /// # let mut receiver = Receiver::<4>::new_at(&mut storage[..], 100);
    /// assert!(receiver.keep(105, b"abc").is_ok());
    /// assert!(receiver.held().eq([(105, 108)]));
    /// ```
    #[must_use]
    pub fn held(&self) -> HeldRuns<'_, N> {
        self.head.held(&self.runs)
    }

    /// Returns how many ranges wait, at most `N`, without looking at them.
    ///
    /// ```
    /// # use net_base::receiver::Receiver;
    /// # let mut storage = [0u8; 16];
    /// # let mut receiver = Receiver::<4>::new(&mut storage[..]);
    /// assert!(receiver.keep(1, b"b").is_ok() && receiver.keep(3, b"d").is_ok());
    /// assert_eq!(receiver.held_count(), 2);
    /// ```
    #[must_use]
    pub fn held_count(&self) -> usize {
        self.head.held_count()
    }

    /// Returns at most `K` waiting ranges, the newest first, as positions (start, end), the end not included: the order
    /// that RFC 2018, section 4, wants of a selective acknowledgement.
    ///
    /// Pass the position of the segment just kept: the range that has it comes first. Then come the ranges of the
    /// positions in `recent`, in their order, and then the others, in rising order; each comes once. Keep `recent` from
    /// call to call, zeros at first.
    ///
    /// So a sender soon learns of each range, although an acknowledgement has room for few. smoltcp's TCP socket
    /// reports one range alone.
    ///
    /// ```
    /// # use net_base::receiver::Receiver;
    /// # let mut storage = [0u8; 16];
    /// # let mut receiver = Receiver::<4>::new_at(&mut storage[..], 100);
    /// let mut recent = [0; 3];
    /// assert!(receiver.keep(108, b"i").is_ok());
    /// assert!(receiver.newest_runs(108, &mut recent).eq([(108, 109)]));
    /// assert!(receiver.keep(104, b"ef").is_ok());
    /// assert!(receiver.newest_runs(104, &mut recent).eq([(104, 106), (108, 109)]));
    /// ```
    pub fn newest_runs<const K: usize>(
        &self,
        position: u64,
        recent: &mut [u64; K],
    ) -> NewestRunIter<K> {
        let mut runs = [HeldRun { start: 0, end: 0 }; K];
        let count = self.head.newest_runs(&self.runs, position, recent, &mut runs);
        NewestRunIter::over(runs, count)
    }

    /// Returns the part of a segment of `len` bytes at `pos` that came before: what is below `next`, or else the first
    /// part that waits. `None` if all of it is new. Ask before the segment is kept. TCP reports such a part once, as
    /// the first block of the next acknowledgement (RFC 2883): it is below what is acknowledged, or within a waiting
    /// range. (Not in smoltcp.)
    ///
    /// ```
    /// # use net_base::receiver::Receiver;
    /// # let mut storage = [0u8; 16];
    /// # let mut receiver = Receiver::<4>::new(&mut storage[..]);
    /// assert!(receiver.keep(0, b"abc").is_ok() && receiver.keep(6, b"ghi").is_ok());
    /// assert_eq!(receiver.duplicate_of(1, 4), Some(1..3));
    /// assert_eq!((receiver.duplicate_of(4, 3), receiver.duplicate_of(3, 3)), (Some(6..7), None));
    /// ```
    #[must_use]
    #[allow(clippy::manual_map)] // its proof has two cases
    pub fn duplicate_of(&self, pos: u64, len: usize) -> Option<Range<u64>> {
        let count = count_existing(pos, len);
        match self.head.duplicate_of(&self.runs, pos, pos + count as u64) {
            Some((start, end)) => Some(start..end),
            None => None,
        }
    }

    /// Returns where the bytes of a segment of `len` bytes at `pos` are: below `next`, in the free window, or above it.
    /// Ask before the segment is kept, to refuse a peer that sends more than it was offered room for. `keep` keeps
    /// those in the free window, unless it returns an error. (Not in smoltcp.)
    ///
    /// ```
    /// # use net_base::receiver::Receiver;
    /// # let mut storage = [0u8; 4];
    /// # let mut receiver = Receiver::<4>::new(&mut storage[..]);
    /// assert!(receiver.keep(0, b"ab").is_ok());
    /// let parts = receiver.parts_of(1, 5);
    /// assert_eq!((parts.old, parts.in_window, parts.beyond), (1, 2, 2));
    /// ```
    ///
    /// # [Guarantees](crate#guarantees)
    ///
    /// - `result.old + result.in_window + result.beyond == len`
    #[must_use]
    pub fn parts_of(&self, pos: u64, len: usize) -> SegmentParts {
        self.head.parts_of(self.storage.count(), pos, len)
    }

    /// Counts those of a segment that ends within 64 bits.
    pub(crate) fn count_part(&self, position: u64, len: usize) -> usize {
        self.head.count_part(self.storage.count(), &self.runs, position, len)
    }

    /// Returns the position of the first byte that wasn't read.
    pub(crate) fn first_unread(&self) -> u64 {
        let head = &self.head;
        head.first + head.count_read
    }

    /// Returns whether the first missing position and the end of each held run are at most a position.
    pub(crate) fn has_all_below(&self, pos: u64) -> bool {
        self.head.has_all_below(&self.runs, pos)
    }

    /// Returns whether first position, count of bytes read, queued bytes and waiting ranges are equal. The waiting
    /// bytes aren't compared, nor are the capacities.
    ///
    /// Two receivers of one stream are found equal if the same number of bytes was read from both and
    /// the same positions were kept, in whatever order the segments arrived.
    ///
    /// ```
    /// # use net_base::receiver::Receiver;
    /// let (mut storage, mut other) = ([0u8; 4], [0u8; 8]);
    /// let receiver = Receiver::<4>::new(&mut storage[..]);
    /// assert!(receiver.same_state(&Receiver::<4>::new(&mut other[..])));
    /// ```
    #[must_use]
    pub fn same_state<O: Storage<u8>>(&self, other: &ReceiverOver<O, N>) -> bool {
        let storage = whole(&self.storage);
        let other_storage = whole(&other.storage);
        self.head.is_same_state(storage, &self.runs, &other.head, other_storage, &other.runs)
    }
}

/// Shows the bytes of a segment at positions that a stream can have.
#[inline]
fn existing(pos: u64, bytes: &[u8]) -> &[u8] {
    &bytes[..count_existing(pos, bytes.len())]
}

/// Shows all bytes of a storage.
pub(crate) fn whole<S: Storage<u8>>(storage: &S) -> &[u8] {
    storage.part(0, storage.count())
}
