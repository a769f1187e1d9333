//! The two halves of a TCP connection: [`SendingEnd`] and [`ReceivingEnd`]. (Not in smoltcp.)
//!
//! They know positions, times and bytes, but no headers, no states of a connection and no clock. How much may be in
//! flight is the caller's choice. `docs/GUIDE.md` of the repository has the order of their calls. In QUIC the
//! connection has the timer and finds the losses, so its streams have a [`SendBuffer`](net_base::finite::SendBuffer).
//!
//! Not proved, but tested: conversions of storage, and `Debug`.
use core::fmt;
use core::ops::{Deref, Range};

use crate::tcp::TimeoutBounds;
use net_base::managed::ManagedSlice;
use net_base::storage::Storage;
use net_base::time::Duration;

pub(crate) mod receiving_end;
pub(crate) mod sending_end;
pub(crate) mod sending_head;
pub(crate) mod tcp_buffer;

pub use receiving_end::{AckFields, Acknowledgement, ReceivingEnd, ReceivingEndOver, SackBlocks};
pub use sending_end::{AckSegment, Acknowledged, Expired, Outgoing, SendingEnd, SendingEndOver};

impl<'a, const N: usize> SendingEnd<'a, N> {
    /// Returns an end of a stream that begins at position 0: [`new_at`](Self::new_at) with 0.
    ///
    /// ```
    /// # use net_tcp::SendingEnd;
    /// # use net_tcp::TimeoutBounds;
    /// # use net_base::time::Duration;
    /// let (mut storage, second) = ([0; 16], Duration::from_secs(1));
    /// assert_eq!(SendingEnd::<8>::new(&mut storage, second, TimeoutBounds::new()).window(), 16);
    /// ```
    #[must_use]
    pub fn new<S: Into<ManagedSlice<'a, u8>>>(
        storage: S,
        first_timeout: Duration,
        bounds: TimeoutBounds,
    ) -> Self {
        SendingEndOver::over_at(storage.into(), 0, first_timeout, bounds)
    }

    /// Returns an end of a stream that begins at position `first`, to which nothing was written. Its timeout is
    /// `first_timeout` until a round trip is known, and then within the bounds.
    ///
    /// ```
    /// # use net_tcp::SendingEnd;
    /// # use net_tcp::TimeoutBounds;
    /// # use net_base::time::Duration;
    /// let (mut storage, second) = ([0; 16], Duration::from_secs(1));
    /// let mut end = SendingEnd::<4>::new_at(&mut storage[..], 1, second, TimeoutBounds::new());
    /// assert_eq!((end.write(b"hello"), end.window(), end.expires_at()), (5, 11, None));
    /// ```
    ///
    /// # Panics
    ///
    /// If `first` is `u64::MAX`: no number is left for the end.
    #[must_use]
    #[track_caller]
    pub fn new_at<S: Into<ManagedSlice<'a, u8>>>(
        storage: S,
        first: u64,
        first_timeout: Duration,
        bounds: TimeoutBounds,
    ) -> Self {
        SendingEndOver::over_at(storage.into(), first, first_timeout, bounds)
    }
}

impl<'a, const N: usize> ReceivingEnd<'a, N> {
    /// Returns an end of a stream whose first byte has position 0: [`new_at`](Self::new_at) with 0.
    ///
    /// ```
    /// # use net_tcp::ReceivingEnd;
    /// let mut storage = [0; 16];
    /// assert_eq!(ReceivingEnd::<8>::new(&mut storage, 1_460).receiver().end(), None);
    /// ```
    #[must_use]
    pub fn new<S: Into<ManagedSlice<'a, u8>>>(storage: S, segment_size: u16) -> Self {
        ReceivingEndOver::over_at(storage.into(), 0, segment_size)
    }

    /// Returns an end of a stream whose first byte has position `first`, to which nothing came. Segments have at most
    /// `segment_size` bytes: the window is announced in steps of so many.
    ///
    /// ```
    /// # use net_tcp::ReceivingEnd;
    /// let mut storage = [0; 16];
    /// let mut end = ReceivingEnd::<4>::new_at(&mut storage[..], 1, 8);
    /// assert!(end.arrived(1, b"hello", false).is_ok());
    /// let mut into = [0; 8];
    /// assert_eq!((end.read(&mut into), &into[..5]), (5, &b"hello"[..]));
    /// ```
    ///
    /// # Panics
    ///
    /// If `first` is `u64::MAX`: no number is left for the end.
    #[must_use]
    #[track_caller]
    pub fn new_at<S: Into<ManagedSlice<'a, u8>>>(
        storage: S,
        first: u64,
        segment_size: u16,
    ) -> Self {
        ReceivingEndOver::over_at(storage.into(), first, segment_size)
    }
}

impl<S: Storage<u8>, const N: usize> fmt::Debug for SendingEndOver<S, N> {
    fn fmt(&self, f: &mut fmt::Formatter) -> fmt::Result {
        f.debug_struct("SendingEnd")
            .field("numbers", &self.numbers())
            .field("window", &self.window())
            .field("expires_at", &self.expires_at())
            .finish_non_exhaustive()
    }
}

impl<S: Storage<u8>, const N: usize> fmt::Debug for ReceivingEndOver<S, N> {
    fn fmt(&self, f: &mut fmt::Formatter) -> fmt::Result {
        f.debug_struct("ReceivingEnd").field("receiver", self.receiver()).finish_non_exhaustive()
    }
}

impl Deref for SackBlocks {
    type Target = [Range<u64>];

    fn deref(&self) -> &[Range<u64>] {
        self.as_slice()
    }
}

impl<'a> IntoIterator for &'a SackBlocks {
    type Item = &'a Range<u64>;
    type IntoIter = core::slice::Iter<'a, Range<u64>>;

    fn into_iter(self) -> Self::IntoIter {
        self.iter()
    }
}

impl fmt::Debug for SackBlocks {
    fn fmt(&self, f: &mut fmt::Formatter<'_>) -> fmt::Result {
        f.debug_list().entries(self).finish()
    }
}
