//! What Rattle has no words for in a ring: storage that is converted, and its text.
use core::fmt;

use managed::ManagedSlice;

use crate::proved::storage::{RingBuffer, RingHead, RingOver, Storage};

impl<'a, T> RingBuffer<'a, T> {
    /// Returns an empty ring over the storage, whose elements stay as they are.
    pub fn new<S: Into<ManagedSlice<'a, T>>>(storage: S) -> Self {
        RingOver::over(storage.into())
    }
}

/// What is printed of a ring: its storage and its head.
pub(super) struct Shown<'s, S>(pub(super) &'s S, pub(super) RingHead);

impl<S: fmt::Debug> fmt::Debug for Shown<'_, S> {
    fn fmt(&self, f: &mut fmt::Formatter) -> fmt::Result {
        f.debug_struct("RingBuffer")
            .field("storage", self.0)
            .field("read_at", &self.1.read_at)
            .field("length", &self.1.length)
            .finish()
    }
}

impl<T, S: Storage<T> + fmt::Debug> fmt::Debug for RingOver<T, S> {
    fn fmt(&self, f: &mut fmt::Formatter) -> fmt::Result {
        Shown(&self.storage, self.head).fmt(f)
    }
}
