//! Streams that end, by TCP's FIN or QUIC's final size. (Not in smoltcp.)
//!
//! | Side | The type keeps the bytes | The program keeps them |
//! |---|---|---|
//! | receiving | [`FiniteReceiver`]; [`StreamReceiver`], which can grow | [`StreamRanges`] |
//! | sending, acknowledged in order | [`FiniteSender`] | |
//! | sending, acknowledged in any order | [`SendBuffer`] | [`SendRanges`] |
//!
//! A *position* is the number of a byte in its stream, 64 bits. The *FIN* has the position after the last byte's. A
//! *waiting range* is a range of bytes that waits for those before it, which are a *hole*. Names call it a *run*, or
//! *held*. To *refuse* is to return an error and change nothing.
//!
//! ```
//! use net_base::finite::{FiniteReceiver, FiniteSender};
//!
//! let (mut out, mut into) = ([0u8; 16], [0u8; 16]);
//! let mut sender = FiniteSender::new_at(&mut out[..], 0);
//! let mut receiver = FiniteReceiver::<4>::new_at(&mut into[..], 0);
//! assert_eq!(sender.write(b"hello"), 5);
//! sender.close();
//! // The segment of the last bytes, with the end, overtakes the one before it.
//! assert_eq!(sender.send_at(0, 3).bytes, b"hel");
//! let lent = sender.send_at(3, sender.numbers_end());
//! assert_eq!((lent.bytes, lent.fin), (&b"lo"[..], true));
//! assert!(receiver.keep(3, lent.bytes, lent.fin).is_ok() && !receiver.is_complete());
//! let lent = sender.peek_at(0, 3);
//! assert!(receiver.keep(0, lent.bytes, lent.fin).is_ok() && receiver.is_complete());
//! // What is acknowledged is all five bytes and the end.
//! assert!(sender.acknowledge(receiver.acknowledged()) && sender.is_closed_and_acknowledged());
//! let mut text = [0; 9];
//! assert_eq!((receiver.read(&mut text), &text[..5]), (5, &b"hello"[..]));
//! assert!(receiver.has_read_all());
//! ```
//!
//! Not proved, but tested: conversions of storage, and `Debug`.
use core::fmt;

use crate::managed::ManagedSlice;
use crate::storage::{Listed, Run, Storage, TooManyHolesError};

pub use crate::stream::{
    Acknowledged, FiniteError, FiniteReceiver, FiniteReceiverOver, FiniteSender, FiniteSenderOver,
    LentBytes, NotSent, SegmentBytes, SendBuffer, SendBufferOver, SendRanges, SendRangesOver,
    SentNumbers, StreamRanges, StreamRangesOver, StreamReceiver, StreamReceiverOver,
};

impl From<TooManyHolesError> for FiniteError {
    fn from(_error: TooManyHolesError) -> Self {
        FiniteError::TooManyHoles
    }
}

impl<'a, const N: usize> FiniteReceiver<'a, N> {
    /// Returns a receiver of a stream that begins at position 0, with room for `N` waiting ranges: 4 where a variable's
    /// or a field's type names no `N`.
    ///
    /// ```
    /// # use net_base::finite::FiniteReceiver;
    /// let mut storage = [0; 16];
    /// assert_eq!(FiniteReceiver::<8>::new(&mut storage).end(), None);
    /// ```
    #[must_use]
    pub fn new<S: Into<ManagedSlice<'a, u8>>>(storage: S) -> Self {
        FiniteReceiver::over(storage.into())
    }

    /// Returns a receiver of a stream that begins at position `first`, with room for `N` waiting ranges.
    ///
    /// ```
    /// # use net_base::finite::FiniteReceiver;
    /// let mut storage = [0; 16];
    /// let mut receiver = FiniteReceiver::<4>::new_at(&mut storage[..], 1);
    /// assert!(receiver.keep(1, b"abc", true).is_ok());
    /// assert_eq!((receiver.is_complete(), receiver.end()), (true, Some(4)));
    /// ```
    ///
    /// # Panics
    ///
    /// Panics if `first` is `u64::MAX`: no stream can end there.
    #[must_use]
    #[track_caller]
    pub fn new_at<S: Into<ManagedSlice<'a, u8>>>(storage: S, first: u64) -> Self {
        FiniteReceiver::over_at(storage.into(), first)
    }
}

impl<'a> StreamReceiver<'a> {
    /// Returns a receiver of a stream that begins at position 0, as QUIC's do; nothing has arrived. `runs` has an
    /// element for each waiting range.
    ///
    /// ```
    /// # use net_base::finite::StreamReceiver;
    /// # use net_base::storage::Run;
    /// let (mut storage, mut runs) = ([0; 16], [Run::EMPTY; 2]);
    /// assert_eq!(StreamReceiver::new(&mut storage, &mut runs).window(), 16);
    /// ```
    #[must_use]
    pub fn new<S, R>(storage: S, runs: R) -> Self
    where
        S: Into<ManagedSlice<'a, u8>>,
        R: Into<ManagedSlice<'a, Run>>,
    {
        StreamReceiver::new_at(storage, runs, 0)
    }

    /// Returns a receiver of a stream that begins at position `first`; nothing has arrived. `runs` has an element for
    /// each waiting range.
    ///
    /// ```
    /// # use net_base::finite::StreamReceiver;
    /// # use net_base::storage::Run;
    /// let (mut storage, mut runs) = ([0; 16], [Run::EMPTY; 2]);
    /// let mut receiver = StreamReceiver::new_at(&mut storage, &mut runs, 1);
    /// assert!(receiver.keep(1, b"abc", true).is_ok() && receiver.end() == Some(4));
    /// ```
    ///
    /// # Panics
    ///
    /// Panics if `first` is `u64::MAX`: no stream can end there.
    #[must_use]
    #[track_caller]
    pub fn new_at<S, R>(storage: S, runs: R, first: u64) -> Self
    where
        S: Into<ManagedSlice<'a, u8>>,
        R: Into<ManagedSlice<'a, Run>>,
    {
        StreamReceiver::over_at(storage.into(), runs.into(), first)
    }
}

impl<'a> StreamRanges<'a> {
    /// Returns the ranges of a stream that begins at position 0, as QUIC's do; nothing has arrived. `runs` has an
    /// element for each waiting range. `capacity` bytes can arrive from the first unread one on: pass `usize::MAX` if
    /// you enforce the window yourself.
    ///
    /// ```
    /// # use net_base::finite::StreamRanges;
    /// assert_eq!(StreamRanges::new(Vec::new(), 16).keep(0..3, false), Ok(Some(0..3)));
    /// ```
    #[must_use]
    pub fn new<R: Into<ManagedSlice<'a, Run>>>(runs: R, capacity: usize) -> Self {
        StreamRanges::new_at(runs, 0, capacity)
    }

    /// Returns the ranges of a stream that begins at position `first`, as `new` does; nothing has arrived.
    ///
    /// ```
    /// # use net_base::finite::StreamRanges;
    /// # use net_base::storage::Run;
    /// let mut runs = [Run::EMPTY; 2];
    /// let mut ranges = StreamRanges::new_at(&mut runs, 1, 16);
    /// assert!(ranges.keep(1..4, true).is_ok() && ranges.end() == Some(4));
    /// ```
    ///
    /// # Panics
    ///
    /// Panics if `first` is `u64::MAX`: no stream can end there.
    #[must_use]
    #[track_caller]
    pub fn new_at<R: Into<ManagedSlice<'a, Run>>>(runs: R, first: u64, capacity: usize) -> Self {
        StreamRanges::over_at(runs.into(), first, capacity)
    }
}

impl<'a> SendRanges<'a> {
    /// Returns the ranges of a stream that begins at position 0, as QUIC's do, to which nothing was written.
    /// `acknowledged` stores ranges that were acknowledged out of order, and `sent` stores ranges in flight above the
    /// first lost byte. Both have room for the same number of ranges.
    ///
    /// ```
    /// # use net_base::finite::SendRanges;
    /// # use net_base::storage::Run;
    /// let (mut acknowledged, mut sent) = ([Run::EMPTY; 2], [Run::EMPTY; 2]);
    /// assert_eq!(SendRanges::new(&mut acknowledged, &mut sent).numbers_end(), 0);
    /// ```
    ///
    /// # Panics
    ///
    /// Panics if the storages have different lengths.
    #[must_use]
    #[track_caller]
    pub fn new<A, D>(acknowledged: A, sent: D) -> Self
    where
        A: Into<ManagedSlice<'a, Run>>,
        D: Into<ManagedSlice<'a, Run>>,
    {
        SendRanges::new_at(acknowledged, sent, 0)
    }

    /// Returns the ranges of a stream that begins at position `first`, to which nothing was written. `acknowledged`
    /// stores ranges that were acknowledged out of order, and `sent` stores ranges in flight above the first lost byte.
    /// Both have room for the same number of ranges.
    ///
    /// ```
    /// # use net_base::finite::SendRanges;
    /// // Empty vectors allocate nothing.
    /// let mut ranges = SendRanges::new_at(vec![], vec![], 1);
    /// assert_eq!((ranges.write(5), ranges.numbers_end()), (5, 6));
    /// ```
    ///
    /// # Panics
    ///
    /// Panics if the storages have different lengths, or if `first` is `u64::MAX`: no stream can end there.
    #[must_use]
    #[track_caller]
    pub fn new_at<A, D>(acknowledged: A, sent: D, first: u64) -> Self
    where
        A: Into<ManagedSlice<'a, Run>>,
        D: Into<ManagedSlice<'a, Run>>,
    {
        SendRanges::over_at(acknowledged.into(), sent.into(), first)
    }
}

impl<'a> SendBuffer<'a> {
    /// Returns the buffer of a stream that begins at position 0, as QUIC's do, to which nothing was written.
    /// `acknowledged` stores ranges that were acknowledged out of order, and `sent` stores ranges in flight above the
    /// first lost byte. Both have room for the same number of ranges.
    ///
    /// ```
    /// # use net_base::finite::SendBuffer;
    /// let mut storage = [0; 16];
    /// assert_eq!(SendBuffer::new(&mut storage, vec![], vec![]).window(), 16);
    /// ```
    ///
    /// # Panics
    ///
    /// Panics if `acknowledged` and `sent` have different lengths.
    #[must_use]
    #[track_caller]
    pub fn new<S, A, D>(storage: S, acknowledged: A, sent: D) -> Self
    where
        S: Into<ManagedSlice<'a, u8>>,
        A: Into<ManagedSlice<'a, Run>>,
        D: Into<ManagedSlice<'a, Run>>,
    {
        SendBuffer::new_at(storage, acknowledged, sent, 0)
    }

    /// Returns the buffer of a stream that begins at position `first`, to which nothing was written. `acknowledged`
    /// stores ranges that were acknowledged out of order, and `sent` stores ranges in flight above the first lost byte.
    /// Both have room for the same number of ranges.
    ///
    /// ```
    /// # use net_base::finite::SendBuffer;
    /// # use net_base::storage::Run;
    /// let mut storage = [0; 16];
    /// let mut buffer = SendBuffer::new_at(&mut storage, vec![Run::EMPTY; 4], vec![Run::EMPTY; 4], 1);
    /// assert_eq!((buffer.write(b"hello"), buffer.window()), (5, 11));
    /// ```
    ///
    /// # Panics
    ///
    /// Panics if `acknowledged` and `sent` have different lengths, or if `first` is `u64::MAX`: no stream can end
    /// there.
    #[must_use]
    #[track_caller]
    pub fn new_at<S, A, D>(storage: S, acknowledged: A, sent: D, first: u64) -> Self
    where
        S: Into<ManagedSlice<'a, u8>>,
        A: Into<ManagedSlice<'a, Run>>,
        D: Into<ManagedSlice<'a, Run>>,
    {
        SendBuffer::over_at(storage.into(), acknowledged.into(), sent.into(), first)
    }
}

impl<'a> FiniteSender<'a> {
    /// Returns a sender of a stream that begins at position 0, to which nothing was written.
    ///
    /// ```
    /// # use net_base::finite::FiniteSender;
    /// let mut storage = [0; 16];
    /// assert_eq!(FiniteSender::new(&mut storage).window(), 16);
    /// ```
    #[must_use]
    pub fn new<S: Into<ManagedSlice<'a, u8>>>(storage: S) -> Self {
        FiniteSender::over(storage.into())
    }

    /// Returns a sender of a stream that begins at position `first`, to which nothing was written.
    ///
    /// ```
    /// # use net_base::finite::FiniteSender;
    /// let mut storage = [0; 16];
    /// let mut sender = FiniteSender::new_at(&mut storage[..], 1);
    /// assert_eq!((sender.write(b"abc"), sender.numbers_end()), (3, 4));
    /// sender.close();
    /// let sent = sender.send_at(1, 9);
    /// assert!(sent.bytes == b"abc" && sent.fin);
    /// ```
    ///
    /// # Panics
    ///
    /// Panics if `first` is `u64::MAX`: no stream can end there.
    #[must_use]
    pub fn new_at<S: Into<ManagedSlice<'a, u8>>>(storage: S, first: u64) -> Self {
        FiniteSender::over_at(storage.into(), first)
    }
}

impl<S: Storage<u8>, const N: usize> fmt::Debug for FiniteReceiverOver<S, N> {
    fn fmt(&self, f: &mut fmt::Formatter) -> fmt::Result {
        f.debug_struct("FiniteReceiver")
            .field("next", &self.receiver().next())
            .field("len", &self.receiver().queued())
            .field("window", &self.receiver().window())
            .field("held", &Listed(|| self.receiver().held()))
            .field("end", &self.end())
            .finish()
    }
}

impl<S: Storage<u8>, R: Storage<Run>> fmt::Debug for StreamReceiverOver<S, R> {
    fn fmt(&self, f: &mut fmt::Formatter) -> fmt::Result {
        f.debug_struct("StreamReceiver")
            .field("next", &self.next())
            .field("len", &self.queued())
            .field("window", &self.window())
            .field("held", &Listed(|| self.held()))
            .field("end", &self.end())
            .finish()
    }
}

impl<R: Storage<Run>> fmt::Debug for StreamRangesOver<R> {
    fn fmt(&self, f: &mut fmt::Formatter) -> fmt::Result {
        f.debug_struct("StreamRanges")
            .field("next", &self.next())
            .field("len", &self.queued())
            .field("window", &self.window())
            .field("held", &Listed(|| self.held()))
            .field("end", &self.end())
            .finish()
    }
}

/// Prints `first_number`, `numbers_end` and `is_closed`, and not the storage.
impl<S: Storage<u8>> fmt::Debug for FiniteSenderOver<S> {
    fn fmt(&self, f: &mut fmt::Formatter) -> fmt::Result {
        f.debug_struct("FiniteSender")
            .field("first_number", &self.first_number())
            .field("numbers_end", &self.numbers_end())
            .field("is_closed", &self.is_closed())
            .finish()
    }
}

impl<R: Storage<Run>> fmt::Debug for SendRangesOver<R> {
    fn fmt(&self, f: &mut fmt::Formatter) -> fmt::Result {
        f.debug_struct("SendRanges")
            .field("numbers", &self.numbers())
            .field("numbers_end", &self.numbers_end())
            .finish_non_exhaustive()
    }
}

impl<S: Storage<u8>, R: Storage<Run>> fmt::Debug for SendBufferOver<S, R> {
    fn fmt(&self, f: &mut fmt::Formatter) -> fmt::Result {
        f.debug_struct("SendBuffer")
            .field("numbers", &self.numbers())
            .field("window", &self.window())
            .finish_non_exhaustive()
    }
}
