// Written by tools/erase.py from crates/net_receiver/src/finite_sender.rt: a change here would be lost.
//! A sender of a stream that ends.

use crate::storage::{ManagedSlice, Storage};
use crate::stream::finite_sender_head::FiniteSenderHead;
use crate::stream::lent_bytes::LentBytes;
use crate::stream::segment_bytes::SegmentBytes;
use crate::stream::sent_numbers::SentNumbers;
use core::mem::replace;
use core::ops::Range;

/// A [`FiniteSender`] over any storage.
///
/// Its queue has the bytes that were written and aren't acknowledged yet. It serves as the sending half of a TCP
/// socket: `send_at` lends the bytes of a segment, and notes that they were sent.
///
/// A position is the number of a byte in its stream, 64 bits. The storage's length is the most bytes that can be
/// queued.
///
/// Once it is closed nothing can be written, and the FIN has the position after the last byte's. The FIN is sent,
/// reported and acknowledged as a byte is, and takes no room. A position is kept free for it, so the sender can always
/// be closed. If the stream doesn't end, never close it.
///
/// No call allocates. smoltcp's TCP socket has its transmit buffer inside.
///
/// ```
/// use net_base::finite::FiniteSenderOver;
///
/// let mut sender = FiniteSenderOver::over([0u8; 8]);
/// assert_eq!(sender.write(b"abc"), 3);
/// sender.close();
/// assert_eq!(sender.send_at(0, 9).bytes, b"abc"); // and the FIN, at position 3
/// assert!(sender.acknowledge(4) && sender.is_closed_and_acknowledged());
/// ```
#[derive(Clone)]
pub struct FiniteSenderOver<S: Storage<u8>> {
    // Invariant: the end is acknowledged only once the sender is closed and its queue is empty. What
    // was sent ends between what is acknowledged and what was written, the end counted. The end's
    // number fits 64 bits.
    head: FiniteSenderHead,
    storage: S,
}

/// A sender of a stream that ends. Its storage is lent or owned, and its calls are those of [`FiniteSenderOver`].
///
/// ```
/// use net_base::finite::FiniteSender;
///
/// let mut storage = [0u8; 4];
/// let mut sender = FiniteSender::new_at(&mut storage[..], 0);
/// assert_eq!(sender.write(b"abcde"), 4);
/// assert_eq!(sender.send_at(0, 3).bytes, b"abc");
/// assert!(sender.acknowledge(3));
/// assert_eq!((sender.first_number(), sender.len()), (3, 1));
/// ```
pub type FiniteSender<'a> = FiniteSenderOver<ManagedSlice<'a, u8>>;

impl<S: Storage<u8>> FiniteSenderOver<S> {
    /// Returns a sender of a stream that begins at position 0: `over_at` with 0.
    #[must_use]
    pub const fn over(storage: S) -> Self {
        Self::over_at(storage, 0)
    }

    /// Returns a sender of a stream that begins at position `first`, to which nothing was written.
    ///
    /// Its capacity is the length of `storage`, which may be 0.
    ///
    /// # Panics
    ///
    /// Panics unless `first` is below `u64::MAX`: no stream can end there.
    #[must_use]
    #[track_caller]
    pub const fn over_at(storage: S, first: u64) -> Self {
        assert!(first < u64::MAX, "no number is left for an end");
        FiniteSenderOver { head: FiniteSenderHead::new(first), storage }
    }

    /// Returns the storage. Its contents are unspecified.
    #[must_use]
    pub fn into_storage(self) -> S {
        let FiniteSenderOver { head: _, storage } = self;
        storage
    }

    /// Begins again over the same storage: a stream that begins at position `first`, to which nothing
    /// was written.
    ///
    /// ```
    /// # use net_base::finite::FiniteSender;
    /// # let mut storage = [0u8; 8];
    /// # let mut sender = FiniteSender::new_at(&mut storage[..], 100);
    /// assert_eq!(sender.write(b"abc"), 3);
    /// sender.reset_at(7);
    /// assert_eq!((sender.first_number(), sender.is_empty()), (7, true));
    /// ```
    ///
    /// # Panics
    ///
    /// Panics unless `first` is below `u64::MAX`: no stream can end there.
    #[track_caller]
    pub fn reset_at(&mut self, first: u64) {
        assert!(first < u64::MAX, "no number is left for an end");
        self.head = FiniteSenderHead::new(first);
    }

    /// Moves the queue to a larger storage, and returns the old one, whose contents are unspecified. All positions
    /// stay, and `window` grows by as much as the storage does, as far as there are positions.
    ///
    /// ```
    /// # use net_base::finite::FiniteSender;
    /// let mut sender = FiniteSender::new_at(vec![0; 4], 100);
    /// assert_eq!(sender.write(b"abcdef"), 4);
    /// sender.grow(vec![0; 16].into());
    /// assert_eq!((sender.write(b"ef"), sender.first_number(), sender.numbers_end()), (2, 100, 106));
    /// assert_eq!(sender.send_at(100, 106).bytes, b"abcdef");
    /// ```
    ///
    /// # Panics
    ///
    /// Panics unless `larger` is at least as long as the storage.
    #[track_caller]
    pub fn grow(&mut self, mut larger: S) -> S {
        assert!(larger.count() >= self.capacity(), "a smaller storage");
        let count = larger.count();
        let bytes = larger.part_mut(0, count);
        let capacity = self.storage.count();
        self.head.grow(self.storage.part(0, capacity), bytes);
        replace(&mut self.storage, larger)
    }

    /// Returns the first position that isn't acknowledged: TCP's SND.UNA. Once the FIN is acknowledged it is
    /// `numbers_end`.
    ///
    /// ```
    /// # use net_base::finite::FiniteSender;
    /// # let mut storage = [0u8; 8];
    /// # let mut sender = FiniteSender::new_at(&mut storage[..], 100);
    /// assert!(sender.write(b"abc") == 3 && sender.mark_sent(103) && sender.first_number() == 100);
    /// assert!(sender.acknowledge(102) && sender.first_number() == 102);
    /// ```
    #[must_use]
    pub fn first_number(&self) -> u64 {
        self.head.first_number()
    }

    /// Returns the position after the last byte, or after the FIN once the sender is closed.
    ///
    /// ```
    /// # use net_base::finite::FiniteSender;
    /// # let mut storage = [0u8; 8];
    /// # let mut sender = FiniteSender::new_at(&mut storage[..], 100);
    /// assert!(sender.write(b"abc") == 3 && sender.numbers_end() == 103);
    /// sender.close();
    /// assert_eq!(sender.numbers_end(), 104);
    /// ```
    #[must_use]
    pub fn numbers_end(&self) -> u64 {
        self.head.numbers_end()
    }

    /// Returns the position after the last one that was ever sent: TCP's SND.MAX.
    ///
    /// ```
    /// # use net_base::finite::FiniteSender;
    /// # let mut storage = [0u8; 8];
    /// # let mut sender = FiniteSender::new_at(&mut storage[..], 100);
    /// assert!(sender.write(b"abc") == 3 && sender.sent() == 100);
    /// assert_eq!(sender.send_at(100, 102).bytes, b"ab");
    /// assert_eq!(sender.sent(), 102);
    /// ```
    #[must_use]
    pub fn sent(&self) -> u64 {
        self.head.sent
    }

    /// Returns `first_number` and `sent`, as windows and timers take them.
    ///
    /// ```
    /// # use net_base::finite::FiniteSender;
    /// # let mut storage = [0u8; 8];
    /// # let mut sender = FiniteSender::new_at(&mut storage[..], 100);
    /// assert!(sender.write(b"abc") == 3 && sender.mark_sent(102));
    /// let numbers = sender.sent_numbers();
    /// assert_eq!((numbers.first_unacknowledged, numbers.sent, numbers.flight_size()), (100, 102, 2));
    /// ```
    #[must_use]
    pub fn sent_numbers(&self) -> SentNumbers {
        SentNumbers { first_unacknowledged: self.first_number(), sent: self.sent() }
    }

    /// Returns how many bytes are queued.
    ///
    /// ```
    /// # use net_base::finite::FiniteSender;
    /// # let mut storage = [0u8; 8];
    /// # let mut sender = FiniteSender::new_at(&mut storage[..], 100);
    /// assert!(sender.write(b"abc") == 3 && sender.mark_sent(102) && sender.acknowledge(102));
    /// assert_eq!(sender.len(), 1);
    /// ```
    #[must_use]
    pub fn len(&self) -> usize {
        self.head.sender.place.length
    }

    /// Returns whether all bytes that were written are acknowledged.
    ///
    /// ```
    /// # use net_base::finite::FiniteSender;
    /// # let mut storage = [0u8; 8];
    /// # let mut sender = FiniteSender::new_at(&mut storage[..], 100);
    /// assert!(sender.is_empty() && sender.write(b"a") == 1 && !sender.is_empty());
    /// ```
    #[must_use]
    pub fn is_empty(&self) -> bool {
        self.len() == 0
    }

    /// Returns the storage's length: the most bytes that can be queued.
    ///
    /// ```
    /// # use net_base::finite::FiniteSender;
    /// # let mut storage = [0u8; 8];
    /// # let mut sender = FiniteSender::new_at(&mut storage[..], 100);
    /// assert!(sender.write(b"abc") == 3 && sender.capacity() == 8);
    /// ```
    #[must_use]
    pub fn capacity(&self) -> usize {
        self.storage.count()
    }

    /// Returns how many bytes `write` would take: those for which the storage has room, and none once the sender is
    /// closed. The last position, `u64::MAX - 1`, is kept for the FIN.
    ///
    /// ```
    /// # use net_base::finite::FiniteSender;
    /// # let mut storage = [0u8; 4];
    /// assert_eq!(FiniteSender::new_at(&mut storage[..], u64::MAX - 3).window(), 2);
    /// ```
    #[must_use]
    pub fn window(&self) -> usize {
        self.head.room(self.storage.count())
    }

    /// Enqueues the first of these bytes, up to `window`, and returns how many.
    ///
    /// ```
    /// # use net_base::finite::FiniteSender;
    /// # let mut storage = [0u8; 4];
    /// # let mut sender = FiniteSender::new_at(&mut storage[..], 0);
    /// assert_eq!((sender.write(b"abc"), sender.write(b"def")), (3, 1));
    /// assert_eq!(sender.peek_at(0, 9).bytes, b"abcd");
    /// ```
    ///
    /// # [Guarantees](crate#guarantees)
    ///
    /// - `result == min(bytes.len(), old(self).window())`
    #[must_use]
    pub fn write(&mut self, bytes: &[u8]) -> usize {
        let capacity = self.storage.count();
        self.head.write(self.storage.part_mut(0, capacity), bytes)
    }

    /// Ends the stream after what was written. A second call changes nothing.
    ///
    /// ```
    /// # use net_base::finite::FiniteSender;
    /// # let mut storage = [0u8; 8];
    /// # let mut sender = FiniteSender::new_at(&mut storage[..], 100);
    /// assert_eq!(sender.write(b"abc"), 3);
    /// sender.close();
    /// assert_eq!((sender.window(), sender.write(b"def"), sender.numbers_end()), (0, 0, 104));
    /// ```
    pub fn close(&mut self) {
        self.head.close();
    }

    /// Lends the queued bytes of a segment from the one at `pos` on, without a copy, up to the storage's end, where the
    /// queue wraps. It lends none if the byte at `pos` isn't queued.
    ///
    /// `fin` says that the segment has the FIN: the sender is closed, the bytes reach the end, and the FIN isn't
    /// acknowledged. It may have no bytes.
    ///
    /// All its positions, the FIN's included, are below `limit`. Pass the end of the peer's window, as
    /// `PeerWindow::send_limit` returns it, or `(pos + mss).min(send_limit)` to keep the segment size too.
    ///
    /// Whatever is written later, the segment is one of the stream. Law `lent_segments` (`docs/laws.md`) says which
    /// positions it has.
    ///
    /// ```
    /// # use net_base::finite::{FiniteSender, LentBytes};
    /// # let mut storage = [0u8; 4];
    /// # let mut sender = FiniteSender::new_at(&mut storage[..], 100);
    /// assert!(sender.write(b"abcd") == 4 && sender.mark_sent(103) && sender.acknowledge(103));
    /// assert_eq!(sender.write(b"ef"), 2);
    /// sender.close();
    /// // The queue wraps in the storage: the segment from 103 on has one byte.
    /// assert_eq!(sender.peek_at(103, 999), LentBytes { bytes: b"d", fin: false });
    /// assert_eq!(sender.peek_at(104, 999), LentBytes { bytes: b"ef", fin: true });
    /// ```
    #[must_use]
    pub fn peek_at(&self, pos: u64, limit: u64) -> LentBytes<'_> {
        let lent = self.head.peek_at(self.storage.count(), pos, limit);
        let from = lent.0.from;
        LentBytes { bytes: self.storage.part(from, from + lent.0.contiguous), fin: lent.1 }
    }

    /// Lends what `peek_at` does, and notes that the segment was sent: `sent` rises to the position after its last one,
    /// the FIN's included, unless it is above. A segment without bytes and FIN changes nothing.
    ///
    /// ```
    /// # use net_base::finite::{FiniteSender, LentBytes};
    /// # let mut storage = [0u8; 8];
    /// # let mut sender = FiniteSender::new_at(&mut storage[..], 100);
    /// assert_eq!(sender.write(b"hello"), 5);
    /// sender.close();
    /// let bytes = sender.send_at(100, 105); // the FIN's position is 105
    /// assert_eq!(bytes, LentBytes { bytes: b"hello", fin: false });
    /// assert_eq!(sender.send_at(105, 106), LentBytes { bytes: b"", fin: true });
    /// assert_eq!(sender.sent(), 106);
    /// ```
    pub fn send_at(&mut self, pos: u64, limit: u64) -> LentBytes<'_> {
        let lent = self.head.send_at(self.storage.count(), pos, limit);
        let from = lent.0.from;
        LentBytes { bytes: self.storage.part(from, from + lent.0.contiguous), fin: lent.1 }
    }

    /// Notes that all positions below `pos` were sent, the FIN's if it is one of them, and returns true. Returns false,
    /// and changes nothing, if `pos` is above `numbers_end`.
    ///
    /// ```
    /// # use net_base::finite::FiniteSender;
    /// # let mut storage = [0u8; 4];
    /// # let mut sender = FiniteSender::new_at(&mut storage[..], 100);
    /// assert_eq!(sender.write(b"abc"), 3);
    /// assert!(sender.mark_sent(102) && sender.mark_sent(101));
    /// assert!(sender.sent() == 102 && !sender.mark_sent(104));
    /// ```
    ///
    /// # [Guarantees](crate#guarantees)
    ///
    /// - `result` exactly if `pos <= old(self).numbers_end()`
    /// - if `!result`, then `self == old(self)`
    #[must_use]
    pub fn mark_sent(&mut self, pos: u64) -> bool {
        self.head.mark_sent(self.storage.count(), pos)
    }

    /// Dequeues the bytes below `next`, notes that the FIN is acknowledged if its position is below `next`, and returns
    /// true. Returns false, and changes nothing, if `next` is below `first_number` or above `sent`. RFC 9293, section
    /// 3.10.7.4, wants an acknowledgement above `sent` refused.
    ///
    /// ```
    /// # use net_base::finite::FiniteSender;
    /// # let mut storage = [0u8; 4];
    /// # let mut sender = FiniteSender::new_at(&mut storage[..], 100);
    /// assert!(sender.write(b"abc") == 3 && sender.mark_sent(102));
    /// assert!(!sender.acknowledge(103) && sender.acknowledge(102));
    /// assert_eq!(sender.peek_at(102, 109).bytes, b"c");
    /// ```
    ///
    /// # [Guarantees](crate#guarantees)
    ///
    /// - `result` exactly if `old(self).first_number() <= next` and `next <= old(self).sent()`
    /// - if `result`, then `self.first_number() == next`
    #[must_use]
    pub fn acknowledge(&mut self, next: u64) -> bool {
        self.head.acknowledge(self.storage.count(), next)
    }

    /// Returns whether the sender is closed.
    ///
    /// ```
    /// # use net_base::finite::FiniteSender;
    /// # let mut storage = [0u8; 8];
    /// # let mut sender = FiniteSender::new_at(&mut storage[..], 100);
    /// assert!(!sender.is_closed());
    /// sender.close();
    /// assert!(sender.is_closed());
    /// ```
    #[must_use]
    pub fn is_closed(&self) -> bool {
        self.head.is_closed()
    }

    /// Returns whether all bytes and the FIN are acknowledged. Once true it stays true, until `reset_at`.
    ///
    /// ```
    /// # use net_base::finite::FiniteSender;
    /// # let mut storage = [0u8; 8];
    /// # let mut sender = FiniteSender::new_at(&mut storage[..], 100);
    /// sender.close();
    /// assert!(sender.mark_sent(101) && !sender.is_closed_and_acknowledged());
    /// assert!(sender.acknowledge(101) && sender.is_closed_and_acknowledged());
    /// ```
    #[must_use]
    pub fn is_closed_and_acknowledged(&self) -> bool {
        self.head.is_closed_and_acknowledged()
    }

    /// Lends the bytes of a range in two parts, where `peek_at` lends those up to the storage's end. The result's `fin`
    /// is whether the stream ends after them. It lends none if the range begins below `first_number`.
    ///
    /// ```
    /// # use net_base::finite::FiniteSender;
    /// # let mut storage = [0u8; 64];
    /// # let mut sender = FiniteSender::new_at(&mut storage[..], 0);
    /// assert_eq!(sender.write(b"abcdef"), 6);
    /// sender.close();
    /// assert_eq!((sender.segment_bytes(2..5).front, sender.segment_bytes(2..5).fin), (&b"cde"[..], false));
    /// // The FIN's position is 6.
    /// assert_eq!((sender.segment_bytes(2..7).front, sender.segment_bytes(2..7).fin), (&b"cdef"[..], true));
    /// ```
    #[must_use]
    pub fn segment_bytes(&self, range: Range<u64>) -> SegmentBytes<'_> {
        let front = self.peek_at(range.start, range.end).bytes;
        let after = range.start + front.len() as u64;
        let back = self.peek_at(after, range.end);
        SegmentBytes { front, back: back.bytes, fin: back.fin }
    }
}
