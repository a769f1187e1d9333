//! One stream of bytes out of segments that arrive in any order: [`Receiver`]. (Not in smoltcp's lowest layer.)
//!
//! A *position* is the number of a byte in its stream, 64 bits. A *waiting range* is a range of bytes that waits for
//! those before it, which are a *hole*. Names call it a *run*, or *held*. To *refuse* is to return an error and change
//! nothing.
//!
//! Not proved, but tested: conversions of storage, and `Debug`.
use core::{fmt, iter};

use crate::managed::ManagedSlice;
use crate::storage::{Listed, Storage};

pub use crate::stream::{
    HeldRunIter, HeldRuns, Kept, KeptBytes, NewestRunIter, Receiver, ReceiverOver, SegmentParts,
};

impl<'a, const N: usize> Receiver<'a, N> {
    /// Returns a receiver of a stream that begins at position 0, with room for `N` waiting ranges: 4 where a variable's
    /// or a field's type names no `N`. To own an array, use [`ReceiverOver::over([0; 16])`](ReceiverOver::over).
    ///
    /// ```
    /// # use net_base::receiver::{Receiver, ReceiverOver};
    /// let (mut storage, mut other) = ([0u8; 16], [0u8; 16]);
    /// assert_eq!(Receiver::<32>::new(&mut storage).next(), 0);
    /// let receiver: Receiver = Receiver::new(&mut other);
    /// assert_eq!(receiver.window(), 16);
    /// assert_eq!(ReceiverOver::<_, 32>::over([0u8; 16]).window(), 16);
    /// ```
    #[must_use]
    pub fn new<S: Into<ManagedSlice<'a, u8>>>(storage: S) -> Self {
        Self::new_at(storage, 0)
    }

    /// Returns a receiver of a stream that begins at position `first`, with room for `N` waiting ranges.
    ///
    /// ```
    /// # use net_base::receiver::Receiver;
    /// let mut storage = [0u8; 16];
    /// let receiver = Receiver::<32>::new_at(&mut storage, 100);
    /// assert_eq!((receiver.next(), receiver.window()), (100, 16));
    /// ```
    #[must_use]
    pub fn new_at<S: Into<ManagedSlice<'a, u8>>>(storage: S, first: u64) -> Self {
        Receiver::over_at(storage.into(), first)
    }
}

impl<S: Storage<u8>, const N: usize> fmt::Debug for ReceiverOver<S, N> {
    fn fmt(&self, f: &mut fmt::Formatter) -> fmt::Result {
        f.debug_struct("Receiver")
            .field("next", &self.next())
            .field("len", &self.queued())
            .field("window", &self.window())
            .field("held", &Listed(|| self.held()))
            .finish()
    }
}

impl fmt::Debug for HeldRunIter<'_> {
    fn fmt(&self, f: &mut fmt::Formatter) -> fmt::Result {
        f.debug_list().entries(self.clone()).finish()
    }
}

impl ExactSizeIterator for HeldRunIter<'_> {}

impl iter::FusedIterator for HeldRunIter<'_> {}

impl<const K: usize> ExactSizeIterator for NewestRunIter<K> {}

impl<const K: usize> iter::FusedIterator for NewestRunIter<K> {}

#[cfg(test)]
mod tests {
    use super::*;
    use std::format;

    #[test]
    fn debug_text() {
        let mut storage = [0u8; 16];
        let mut receiver = Receiver::<4>::new_at(&mut storage[..], 100);
        assert!(receiver.keep(100, b"abc").is_ok() && receiver.keep(106, b"gh").is_ok());
        let text = "Receiver { next: 103, len: 3, window: 13, held: [(106, 108)] }";
        assert_eq!(format!("{receiver:?}"), text);
    }
}
