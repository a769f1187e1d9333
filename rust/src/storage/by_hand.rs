//! By hand, of rings, packet queues, assemblers and buffers of fragments: storage that is converted; what has no `N`;
//! what is printed, since Rattle would print the storage; traits that Rattle hasn't.
#[cfg(feature = "alloc")]
use alloc::{boxed::Box, vec::Vec};
use core::{fmt, iter};

use super::fragment_table::FragmentSlot;
use super::{
    Assembler, FragmentBuffer, FragmentError, FragmentsOver, HoleIter, Iter, PacketBuffer,
};
use super::{
    PacketMetadata, PacketsOver, RingBuffer, RingOver, Run, RunIter, Storage, TooManyHolesError,
};
use crate::managed::ManagedSlice;
use crate::time::Instant;

impl<'a, T> RingBuffer<'a, T> {
    /// Returns an empty ring over the storage, whose elements stay as they are. For an array by value use
    /// [`RingOver::over`].
    ///
    /// ```
    /// # use net_base::storage::{RingBuffer, RingOver};
    /// let mut storage = [0; 4];
    /// let mut ring = RingBuffer::new(&mut storage);
    /// assert_eq!((ring.enqueue_slice(b"abcde"), ring.window()), (4, 0));
    /// assert_eq!(RingOver::over([0u8; 4]).enqueue_slice(b"abcde"), 4);
    /// ```
    pub fn new<S: Into<ManagedSlice<'a, T>>>(storage: S) -> Self {
        RingOver::over(storage.into())
    }
}

impl<'a, T, S: Storage<T>> IntoIterator for &'a RingOver<T, S> {
    type Item = &'a T;
    type IntoIter = Iter<'a, T>;

    fn into_iter(self) -> Iter<'a, T> {
        self.iter()
    }
}

/// # Panics
///
/// Panics if there is no room for an element. Those before it are queued then.
impl<T, S: Storage<T>> Extend<T> for RingOver<T, S> {
    fn extend<I: IntoIterator<Item = T>>(&mut self, elements: I) {
        for element in elements {
            *self.enqueue_one().expect("room for an element") = element;
        }
    }
}

/// # Panics
///
/// Panics if there is no room for an element. Those before it are queued then.
impl<'e, T: Copy + 'e, S: Storage<T>> Extend<&'e T> for RingOver<T, S> {
    fn extend<I: IntoIterator<Item = &'e T>>(&mut self, elements: I) {
        self.extend(elements.into_iter().copied());
    }
}

impl<T> ExactSizeIterator for Iter<'_, T> {}

impl<T> iter::FusedIterator for Iter<'_, T> {}

/// Enqueues a text as a whole, or returns an error if there is no room for it.
impl<S: Storage<u8>> fmt::Write for RingOver<u8, S> {
    fn write_str(&mut self, text: &str) -> fmt::Result {
        if text.len() > self.window() {
            return Err(fmt::Error);
        }
        let _all = self.enqueue_slice(text.as_bytes());
        Ok(())
    }
}

impl<T, S: Storage<T>> fmt::Debug for RingOver<T, S> {
    fn fmt(&self, f: &mut fmt::Formatter) -> fmt::Result {
        f.debug_struct("RingBuffer")
            .field("capacity", &self.capacity())
            .field("read_at", &self.head().read_at)
            .field("length", &self.len())
            .finish()
    }
}

impl<'a, H> PacketBuffer<'a, H> {
    /// Returns an empty queue over these slots and bytes.
    ///
    /// ```
    /// # use net_base::storage::{PacketBuffer, PacketMetadata};
    /// let (mut slots, mut bytes) = ([PacketMetadata::EMPTY; 4], [0; 64]);
    /// let mut queue = PacketBuffer::new(&mut slots[..], &mut bytes[..]);
    /// queue.enqueue(3, 7).expect("there is room").copy_from_slice(b"abc");
    /// assert_eq!(queue.dequeue(), Ok((7, &mut b"abc".to_owned()[..])));
    /// ```
    pub fn new<M, B>(slots: M, bytes: B) -> Self
    where
        M: Into<ManagedSlice<'a, PacketMetadata<H>>>,
        B: Into<ManagedSlice<'a, u8>>,
    {
        PacketsOver::over(slots.into(), bytes.into())
    }
}

impl Run {
    /// A range that isn't in use. Storage of ranges is made of it.
    ///
    /// ```
    /// use net_base::storage::Run;
    ///
    /// let runs = [Run::EMPTY; 64];
    /// assert_eq!((runs[0].start, runs[0].end), (0, 0));
    /// ```
    pub const EMPTY: Run = Run { start: 0, end: 0 };
}

/// An empty slot.
impl<H> Default for PacketMetadata<H> {
    fn default() -> Self {
        Self::EMPTY
    }
}

impl<H, M: Storage<PacketMetadata<H>>, B: Storage<u8>> fmt::Debug for PacketsOver<H, M, B> {
    fn fmt(&self, f: &mut fmt::Formatter) -> fmt::Result {
        f.debug_struct("PacketBuffer")
            .field("packet_capacity", &self.packet_capacity())
            .field("slots_used", &self.slots_used())
            .field("payload_capacity", &self.payload_capacity())
            .field("payload_bytes_count", &self.payload_bytes_count())
            .finish()
    }
}

impl Assembler {
    /// Returns an empty assembler with room for 4 ranges, as smoltcp's has. For 8 write `Assembler::<8>::empty()`.
    /// For as many as features say, write `Assembler::<ASSEMBLER_MAX_SEGMENT_COUNT>::empty()`, with the constant of
    /// [`config`](crate::config).
    ///
    /// ```
    /// # use net_base::storage::Assembler;
    /// let mut assembler = Assembler::new();
    /// let taken = (0..9).take_while(|k| assembler.add(2 * k + 1, 1).is_ok());
    /// assert_eq!(taken.count(), 4);
    /// ```
    #[must_use]
    pub const fn new() -> Assembler {
        Assembler::empty()
    }
}

impl<const N: usize> Default for Assembler<N> {
    fn default() -> Self {
        Self::empty()
    }
}

/// A hole and the data after it, as smoltcp prints them.
#[derive(Debug)]
#[allow(dead_code)]
struct Contig {
    hole_size: usize,
    data_size: usize,
}

impl<const N: usize> fmt::Debug for Assembler<N> {
    fn fmt(&self, f: &mut fmt::Formatter) -> fmt::Result {
        f.debug_struct("Assembler").field("contigs", &Listed(|| self.contigs())).finish()
    }
}

impl<const N: usize> Assembler<N> {
    fn contigs(&self) -> impl Iterator<Item = Contig> + '_ {
        let mut from = 0;
        let stored = self.iter_data().map(move |(start, end)| {
            let contig = Contig { hole_size: start - from, data_size: end - start };
            from = end;
            contig
        });
        stored.chain(iter::repeat_with(|| Contig { hole_size: 0, data_size: 0 })).take(N)
    }
}

impl fmt::Debug for RunIter<'_> {
    fn fmt(&self, f: &mut fmt::Formatter) -> fmt::Result {
        f.debug_list().entries(self.clone()).finish()
    }
}

impl fmt::Debug for HoleIter<'_> {
    fn fmt(&self, f: &mut fmt::Formatter) -> fmt::Result {
        f.debug_list().entries(self.clone()).finish()
    }
}

impl ExactSizeIterator for RunIter<'_> {}

impl iter::FusedIterator for RunIter<'_> {}

impl ExactSizeIterator for HoleIter<'_> {}

impl iter::FusedIterator for HoleIter<'_> {}

impl From<TooManyHolesError> for FragmentError {
    fn from(_error: TooManyHolesError) -> Self {
        FragmentError::TooManyHoles
    }
}

impl<'a, const N: usize> FragmentBuffer<'a, N> {
    /// Returns an empty buffer with room for `N` ranges. A type that is written without an `N` has 4.
    ///
    /// ```
    /// # use net_base::storage::FragmentBuffer;
    /// # use net_base::time::Instant;
    /// # let mut bytes = [0u8; 8];
    /// assert!(FragmentBuffer::<8>::new(&mut bytes, Instant::ZERO).is_empty());
    /// ```
    #[must_use]
    pub fn new<S: Into<ManagedSlice<'a, u8>>>(storage: S, expires_at: Instant) -> Self {
        FragmentBuffer::over(storage.into(), expires_at)
    }
}

impl<K: fmt::Debug, B: Storage<u8>, const N: usize> fmt::Debug for FragmentSlot<K, B, N> {
    fn fmt(&self, f: &mut fmt::Formatter) -> fmt::Result {
        f.debug_struct("FragmentSlot")
            .field("key", &self.key)
            .field("buffer", &self.buffer)
            .finish()
    }
}

impl<B: Storage<u8>, const N: usize> fmt::Debug for FragmentsOver<B, N> {
    fn fmt(&self, f: &mut fmt::Formatter) -> fmt::Result {
        f.debug_struct("FragmentBuffer")
            .field("capacity", &self.capacity())
            .field("total_size", &self.total_size())
            .field("expires_at", &self.expires_at())
            .finish()
    }
}

/// Storage that is a slice behind its own type: an array, and what lends or owns one.
macro_rules! as_slices {
    ($($(#[$attribute:meta])* [$($parameter:tt)*] $storage:ty;)*) => {$(
        $(#[$attribute])*
        impl<T, $($parameter)*> Storage<T> for $storage {
            fn count(&self) -> usize {
                self.len()
            }

            fn part(&self, from: usize, to: usize) -> &[T] {
                &self[from..to]
            }

            fn part_mut(&mut self, from: usize, to: usize) -> &mut [T] {
                &mut self[from..to]
            }

            fn element_mut(&mut self, at: usize) -> &mut T {
                &mut self[at]
            }

            fn element(&self, at: usize) -> &T {
                &self[at]
            }
        }
    )*};
}

as_slices! {
    /// An array by value as storage. With it `over` can make a `static`, as in the example `interrupt`.
    ///
    /// ```
    /// use net_base::storage::RingOver;
    ///
    /// const RING: RingOver<u8, [u8; 4]> = RingOver::over([0; 4]);
    /// let mut ring = RING;
    /// assert_eq!((ring.enqueue_slice(b"abcde"), ring.get_allocated(1, 9)), (4, &b"bcd"[..]));
    /// ```
    [const N: usize] [T; N];
    /// An array that is lent.
    [const N: usize] &mut [T; N];
    /// A boxed slice.
    #[cfg(feature = "alloc")]
    [] Box<[T]>;
    /// A boxed array.
    #[cfg(feature = "alloc")]
    [const N: usize] Box<[T; N]>;
    /// A vector that is lent: its length is the capacity.
    #[cfg(feature = "alloc")]
    [] &mut Vec<T>;
}

/// Prints what a closure's iterator yields, as a list.
pub(crate) struct Listed<F>(pub(crate) F);

impl<F: Fn() -> I, I: Iterator<Item: fmt::Debug>> fmt::Debug for Listed<F> {
    fn fmt(&self, f: &mut fmt::Formatter) -> fmt::Result {
        f.debug_list().entries((self.0)()).finish()
    }
}

#[cfg(test)]
mod tests {
    use super::*;
    use std::format;

    #[test]
    fn debug_text() {
        let mut storage = [0u8; 4];
        let mut ring = RingBuffer::new(&mut storage[..]);
        ring.enqueue_unallocated(3);
        ring.dequeue_allocated(2);
        assert_eq!(format!("{ring:?}"), "RingBuffer { capacity: 4, read_at: 2, length: 1 }");
    }

    #[test]
    fn debug_text_of_many_runs() {
        static ASSEMBLER: Assembler<100_000> = Assembler::empty();
        let print = || format!("{ASSEMBLER:?}").len();
        let thread = std::thread::Builder::new().stack_size(128 << 10).spawn(print);
        assert_eq!(thread.unwrap().join().unwrap(), 25 + 39 * 100_000 - 2);
    }
}
