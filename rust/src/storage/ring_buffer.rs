// Written by tools/erase.py from crates/net_ring/src/ring_buffer.rt: a change here would be lost.
//! A ring of elements over storage that is lent or owned.

use crate::storage::error::{Empty, Full};
use crate::storage::managed::{ManagedSlice, Storage};
use crate::storage::resettable::Resettable;
use crate::storage::ring_head::RingHead;
#[cfg(feature = "alloc")]
use alloc::vec::Vec;
use core::marker::PhantomData;
use core::mem::replace;
pub use iter::Iter;

mod iter;

/// A [`RingBuffer`] over any storage.
///
/// The queued elements wrap at the storage's end, and so do the free ones:
///
/// ```text
/// index      0 1 2 3 4 5 6 7
/// storage    f g . . . c d e     read from index 5 on: the queue is c d e f g
/// ```
///
/// Calls that copy elements require `T: Copy`. The others lend parts of the storage, mostly as
/// `&mut`, so that you can write elements in place.
///
/// In guarantees `queue` has the queued elements in order, and `spare` the free ones, the next one
/// to fill first. `++` joins lists.
#[derive(Clone)]
pub struct RingOver<T, S: Storage<T>> {
    // Invariant: the head is sound for the storage.
    storage: S,
    head: RingHead,
    elements: PhantomData<T>,
}

/// A first-in, first-out queue of elements, over storage that is lent or owned. Its methods are
/// those of [`RingOver`].
///
/// It also serves as the buffer of a stream: elements can be written ahead of the queue, and be
/// enqueued later.
///
/// ```
/// use net_base::storage::RingBuffer;
///
/// let mut storage = [0u8; 4];
/// let mut ring = RingBuffer::new(&mut storage[..]);
/// assert_eq!(ring.enqueue_slice(b"abc"), 3);
/// let mut into = [0; 2];
/// assert_eq!((ring.dequeue_slice(&mut into), &into), (2, b"ab"));
/// assert_eq!(ring.enqueue_slice(b"defg"), 3);
/// assert_eq!((ring.get_allocated(0, 4), ring.get_allocated(2, 4)), (&b"cd"[..], &b"ef"[..]));
/// ```
pub type RingBuffer<'a, T> = RingOver<T, ManagedSlice<'a, T>>;

/// Making, emptying and measuring a ring.
impl<T, S: Storage<T>> RingOver<T, S> {
    /// Returns an empty ring over storage of any type. The storage's elements stay as they are.
    ///
    /// (Not in smoltcp.) [`RingBuffer::new`] takes a slice, a `Vec` or a `Box`.
    ///
    /// ```
    /// # use net_base::storage::RingOver;
    /// let mut storage = *b"abcd";
    /// let mut ring = RingOver::over(&mut storage[..]);
    /// // What was in the storage is free, and is enqueued as it is.
    /// ring.enqueue_unallocated(2);
    /// assert_eq!(ring.as_slices(), (&b"ab"[..], &b""[..]));
    /// ```
    pub const fn over(storage: S) -> Self {
        RingOver { storage, head: RingHead::new(), elements: PhantomData }
    }

    /// Returns the index where the ring is read, and how many elements are queued.
    ///
    /// (Not in smoltcp.)
    #[inline]
    pub(crate) fn head(&self) -> RingHead {
        self.head
    }

    /// Empties the ring, and leaves the storage as it is.
    ///
    /// ```
    /// # use net_base::storage::RingBuffer;
    /// # let mut storage = [0u8; 4];
    /// # let mut ring = RingBuffer::new(&mut storage[..]);
    /// ring.enqueue_unallocated(3);
    /// ring.clear();
    /// assert!(ring.is_empty());
    /// ```
    pub fn clear(&mut self) {
        self.head.clear();
    }

    /// Returns how many elements the ring has room for, queued ones included.
    ///
    /// ```
    /// # use net_base::storage::RingBuffer;
    /// let mut storage = [0u8; 4];
    /// assert_eq!(RingBuffer::new(&mut storage[..]).capacity(), 4);
    /// ```
    #[inline]
    #[must_use]
    pub fn capacity(&self) -> usize {
        self.storage.count()
    }

    /// Empties the ring, and resets each element of the storage by [`Resettable::reset`].
    ///
    /// ```
    /// # use net_base::storage::{Resettable, RingBuffer};
    /// # struct Slot(u32);
    /// # impl Resettable for Slot { fn reset(&mut self) { self.0 = 0; } }
    /// let mut slots = [Slot(7), Slot(8)];
    /// RingBuffer::new(&mut slots[..]).reset();
    /// assert_eq!((slots[0].0, slots[1].0), (0, 0));
    /// ```
    pub fn reset(&mut self)
    where
        T: Resettable,
    {
        let count = self.capacity();
        self.clear();
        reset_each(self.storage.part_mut(0, count));
    }

    /// Returns how many elements are queued.
    ///
    /// ```
    /// # use net_base::storage::RingBuffer;
    /// # let mut storage = [0u8; 4];
    /// # let mut ring = RingBuffer::new(&mut storage[..]);
    /// ring.enqueue_unallocated(3);
    /// assert_eq!(ring.len(), 3);
    /// ```
    #[inline]
    #[must_use]
    pub fn len(&self) -> usize {
        self.head.length
    }

    /// Returns how many elements can still be enqueued.
    ///
    /// ```
    /// # use net_base::storage::RingBuffer;
    /// # let mut storage = [0u8; 4];
    /// # let mut ring = RingBuffer::new(&mut storage[..]);
    /// ring.enqueue_unallocated(3);
    /// assert_eq!(ring.window(), 1);
    /// ```
    #[inline]
    #[must_use]
    pub fn window(&self) -> usize {
        self.capacity() - self.len()
    }

    /// Returns how many elements can be enqueued before the storage's end.
    ///
    /// If the ring is empty, `enqueue_many` may enqueue more, since it first moves the read index
    /// to the storage's beginning.
    ///
    /// ```
    /// # use net_base::storage::RingBuffer;
    /// # let mut storage = [0u8; 4];
    /// # let mut ring = RingBuffer::new(&mut storage[..]);
    /// ring.enqueue_unallocated(3);
    /// ring.dequeue_allocated(2);
    /// assert_eq!((ring.window(), ring.contiguous_window()), (3, 1));
    /// ```
    #[must_use]
    pub fn contiguous_window(&self) -> usize {
        self.head.contiguous_window(self.capacity())
    }

    /// Returns whether no element is queued.
    ///
    /// ```
    /// # use net_base::storage::RingBuffer;
    /// let mut storage = [0u8; 4];
    /// assert!(RingBuffer::new(&mut storage[..]).is_empty());
    /// ```
    #[inline]
    #[must_use]
    pub fn is_empty(&self) -> bool {
        self.len() == 0
    }

    /// Returns whether no element can be enqueued.
    ///
    /// ```
    /// # use net_base::storage::RingBuffer;
    /// let mut storage = [0u8; 0];
    /// assert!(RingBuffer::new(&mut storage[..]).is_full());
    /// ```
    #[inline]
    #[must_use]
    pub fn is_full(&self) -> bool {
        // `window() == 0` says the same. This form tells the compiler that the length of a ring
        // that isn't full is not the greatest one, so that adding 1 can't make it 0.
        self.len() >= self.capacity()
    }

    /// Moves the read index of an empty ring to the storage's beginning, so that all free elements
    /// are contiguous. A ring with queued elements stays as it is.
    ///
    /// (Not in smoltcp.) It serves callers that write to free elements first, and enqueue them
    /// later.
    ///
    /// ```
    /// # use net_base::storage::RingBuffer;
    /// # let mut storage = [0u8; 4];
    /// # let mut ring = RingBuffer::new(&mut storage[..]);
    /// ring.enqueue_unallocated(3);
    /// ring.dequeue_allocated(3);
    /// assert_eq!(ring.contiguous_window(), 1);
    /// ring.rewind_if_empty();
    /// assert_eq!(ring.contiguous_window(), 4);
    /// ```
    #[inline]
    pub fn rewind_if_empty(&mut self) {
        self.head.rewind_if_empty();
    }
}

/// One element at a time. The error of a full ring is `Full`, and that of an empty one `Empty`.
impl<T, S: Storage<T>> RingOver<T, S> {
    /// Calls `f` on the next free element, enqueues the element if `f` returns `Ok`, and returns
    /// what `f` returned.
    ///
    /// What `f` wrote stays in the storage either way.
    ///
    /// ```
    /// # use net_base::storage::RingBuffer;
    /// # let mut storage = [0u8; 4];
    /// # let mut ring = RingBuffer::new(&mut storage[..]);
    /// assert_eq!(ring.enqueue_one_with(|byte| { *byte = 7; Ok::<_, ()>(*byte) }), Ok(Ok(7)));
    /// assert_eq!(ring.enqueue_one_with(|_| Err::<(), _>("no")), Ok(Err("no")));
    /// assert_eq!(ring.len(), 1);
    /// ```
    ///
    /// # Errors
    ///
    /// `Full` if the ring is full. Then it stays as it is, and `f` isn't called.
    pub fn enqueue_one_with<'b, R, E, F: FnOnce(&'b mut T) -> Result<R, E>>(
        &'b mut self,
        f: F,
    ) -> Result<Result<R, E>, Full> {
        if self.is_full() {
            return Err(Full);
        }
        let capacity = self.capacity();
        let at = self.head.index(capacity, self.head.length);
        let answer = f(self.storage.element_mut(at));
        if answer.is_ok() {
            self.head.enqueue(capacity, 1);
        }
        Ok(answer)
    }

    /// Enqueues the next free element with the value that it has, and lends it.
    ///
    /// ```
    /// # use net_base::storage::{Full, RingBuffer};
    /// # let mut storage = [0u8; 1];
    /// # let mut ring = RingBuffer::new(&mut storage[..]);
    /// *ring.enqueue_one()? = 7;
    /// assert_eq!(ring.enqueue_one(), Err(Full));
    /// # Ok::<(), Full>(())
    /// ```
    ///
    /// # Errors
    ///
    /// `Full` if the ring is full. Then it stays as it is.
    pub fn enqueue_one(&mut self) -> Result<&mut T, Full> {
        if self.is_full() {
            return Err(Full);
        }
        Ok(self.enqueue_next())
    }

    /// Enqueues the next free element of a ring that has room, and lends it.
    fn enqueue_next(&mut self) -> &mut T {
        let capacity = self.capacity();
        let at = self.head.index(capacity, self.head.length);
        self.head.enqueue(capacity, 1);
        self.storage.element_mut(at)
    }

    /// Calls `f` on the first element of the queue, dequeues the element if `f` returns `Ok`, and
    /// returns what `f` returned.
    ///
    /// What `f` wrote stays in the storage either way.
    ///
    /// ```
    /// # use net_base::storage::{Empty, RingBuffer};
    /// # let mut storage = [0u8; 4];
    /// # let mut ring = RingBuffer::new(&mut storage[..]);
    /// assert_eq!(ring.enqueue_slice(b"a"), 1);
    /// assert_eq!(ring.dequeue_one_with(|_| Err::<(), _>("later")), Ok(Err("later")));
    /// assert_eq!(ring.dequeue_one_with(|byte| Ok::<_, ()>(*byte)), Ok(Ok(b'a')));
    /// assert_eq!(ring.dequeue_one_with(|byte| Ok::<_, ()>(*byte)), Err(Empty));
    /// ```
    ///
    /// # Errors
    ///
    /// `Empty` if the ring is empty. Then it stays as it is, and `f` isn't called.
    pub fn dequeue_one_with<'b, R, E, F: FnOnce(&'b mut T) -> Result<R, E>>(
        &'b mut self,
        f: F,
    ) -> Result<Result<R, E>, Empty> {
        if self.is_empty() {
            return Err(Empty);
        }
        let capacity = self.capacity();
        let answer = f(self.storage.element_mut(self.head.read_at));
        if answer.is_ok() {
            self.head.dequeue_contiguous(capacity, 1);
        }
        Ok(answer)
    }

    /// Dequeues the first element of the queue, and lends it.
    ///
    /// ```
    /// # use net_base::storage::{Empty, RingBuffer};
    /// # let mut storage = [0u8; 4];
    /// # let mut ring = RingBuffer::new(&mut storage[..]);
    /// assert_eq!(ring.enqueue_slice(b"a"), 1);
    /// assert_eq!(ring.dequeue_one(), Ok(&mut b'a'));
    /// assert_eq!(ring.dequeue_one(), Err(Empty));
    /// ```
    ///
    /// # Errors
    ///
    /// `Empty` if the ring is empty. Then it stays as it is.
    ///
    /// # [Guarantees](crate#guarantees)
    ///
    /// - on `Ok(r)`: `old(self).queue == [r] ++ old(self).queue[1..]`
    pub fn dequeue_one(&mut self) -> Result<&mut T, Empty> {
        if self.is_empty() {
            return Err(Empty);
        }
        Ok(self.dequeue_first())
    }

    /// Dequeues the first element of a ring that is not empty, and lends it.
    fn dequeue_first(&mut self) -> &mut T {
        let at = self.head.read_at;
        self.head.dequeue_contiguous(self.storage.count(), 1);
        self.storage.element_mut(at)
    }
}

/// Many elements at a time. Calls that lend elements stop at the storage's end. Calls that copy
/// them go on at its beginning.
impl<T, S: Storage<T>> RingOver<T, S> {
    /// Calls `f` on the next free elements, as many as are contiguous. `f` returns how many of the
    /// first ones to enqueue, and a result. Both are returned.
    ///
    /// An empty ring first moves its read index to the storage's beginning. What `f` wrote stays in
    /// the storage, even where it isn't enqueued.
    ///
    /// ```
    /// # use net_base::storage::RingBuffer;
    /// # let mut storage = [0u8; 4];
    /// # let mut ring = RingBuffer::new(&mut storage[..]);
    /// assert_eq!(ring.enqueue_many_with(|free| { free[..2].copy_from_slice(b"ab"); (2, free.len()) }), (2, 4));
    /// assert_eq!(ring.get_allocated(0, 4), b"ab");
    /// ```
    ///
    /// # Panics
    ///
    /// Panics unless the count that `f` returns is at most the length of the slice that it was
    /// lent.
    #[track_caller]
    pub fn enqueue_many_with<'b, R, F: FnOnce(&'b mut [T]) -> (usize, R)>(
        &'b mut self,
        f: F,
    ) -> (usize, R) {
        self.rewind_if_empty();
        let capacity = self.capacity();
        let from = self.head.index(capacity, self.head.length);
        let to = from + self.head.contiguous_window(capacity);
        debug_assert!(to <= capacity);
        let answer = f(self.storage.part_mut(from, to));
        assert!(answer.0 <= to - from, "more elements than were lent");
        self.head.enqueue(capacity, answer.0);
        answer
    }

    /// Enqueues the next free elements with the values that they have, and lends them: at most
    /// `size`, and as many as are contiguous.
    ///
    /// An empty ring first moves its read index to the storage's beginning.
    ///
    /// ```
    /// # use net_base::storage::RingBuffer;
    /// # let mut storage = [0u8; 4];
    /// # let mut ring = RingBuffer::new(&mut storage[..]);
    /// ring.enqueue_many(3).copy_from_slice(b"abc");
    /// assert_eq!(ring.enqueue_many(3).len(), 1);
    /// ```
    ///
    /// # [Guarantees](crate#guarantees)
    ///
    /// - if `old(self).window() != 0` and `0 < size`, then `0 < result.len()`
    #[must_use]
    pub fn enqueue_many(&mut self, size: usize) -> &mut [T] {
        let span = self.head.enqueue_many(self.storage.count(), size);
        self.storage.part_mut(span.from, span.from + span.count)
    }

    /// Enqueues as many elements of `data` as there is room for, and returns how many.
    ///
    /// An empty ring first moves its read index to the storage's beginning, even if nothing is
    /// enqueued.
    ///
    /// ```
    /// # use net_base::storage::RingBuffer;
    /// # let mut storage = [0u8; 4];
    /// # let mut ring = RingBuffer::new(&mut storage[..]);
    /// assert_eq!(ring.enqueue_slice(b"abcdef"), 4);
    /// assert_eq!(ring.get_allocated(0, 4), b"abcd");
    /// ```
    ///
    /// # [Guarantees](crate#guarantees)
    ///
    /// - `result == min(data.len(), old(self).window())`
    /// - `self.queue == old(self).queue ++ data[..result]`
    #[must_use]
    pub fn enqueue_slice(&mut self, data: &[T]) -> usize
    where
        T: Copy,
    {
        let capacity = self.storage.count();
        self.head.enqueue_slice(self.storage.part_mut(0, capacity), data)
    }

    /// Calls `f` on the first elements of the queue, as many as are contiguous. `f` returns how
    /// many of the first ones to dequeue, and a result. Both are returned.
    ///
    /// What `f` wrote stays in the storage.
    ///
    /// ```
    /// # use net_base::storage::RingBuffer;
    /// # let mut storage = [0u8; 4];
    /// # let mut ring = RingBuffer::new(&mut storage[..]);
    /// assert_eq!(ring.enqueue_slice(b"abc"), 3);
    /// assert_eq!(ring.dequeue_many_with(|queued| (2, queued.len())), (2, 3));
    /// assert_eq!(ring.get_allocated(0, 4), b"c");
    /// ```
    ///
    /// # Panics
    ///
    /// Panics unless the count that `f` returns is at most the length of the slice that it was
    /// lent.
    #[track_caller]
    pub fn dequeue_many_with<'b, R, F: FnOnce(&'b mut [T]) -> (usize, R)>(
        &'b mut self,
        f: F,
    ) -> (usize, R) {
        let capacity = self.capacity();
        let from = self.head.read_at;
        let to = from + self.head.contiguous_queue(capacity);
        debug_assert!(to <= capacity);
        let answer = f(self.storage.part_mut(from, to));
        assert!(answer.0 <= to - from, "more elements than were lent");
        self.head.dequeue_contiguous(capacity, answer.0);
        answer
    }

    /// Dequeues at most `size` elements, and lends them: as many as are contiguous.
    ///
    /// ```
    /// # use net_base::storage::RingBuffer;
    /// # let mut storage = [0u8; 4];
    /// # let mut ring = RingBuffer::new(&mut storage[..]);
    /// assert_eq!(ring.enqueue_slice(b"abc"), 3);
    /// assert_eq!(ring.dequeue_many(2), b"ab");
    /// assert_eq!(ring.dequeue_many(2), b"c");
    /// ```
    ///
    /// # [Guarantees](crate#guarantees)
    ///
    /// - if `old(self).len() != 0` and `0 < size`, then `0 < result.len()`
    /// - `result == old(self).queue[..result.len()]`
    #[must_use]
    pub fn dequeue_many(&mut self, size: usize) -> &mut [T] {
        let span = self.head.dequeue_many(self.storage.count(), size);
        self.storage.part_mut(span.from, span.from + span.count)
    }

    /// Dequeues as many elements as are queued and fit into `data`, copies them to its beginning,
    /// and returns how many. The rest of `data` stays as it is.
    ///
    /// ```
    /// # use net_base::storage::RingBuffer;
    /// # let mut storage = [0u8; 4];
    /// # let mut ring = RingBuffer::new(&mut storage[..]);
    /// assert_eq!(ring.enqueue_slice(b"abc"), 3);
    /// let mut into = *b"-----";
    /// assert_eq!((ring.dequeue_slice(&mut into), &into), (3, b"abc--"));
    /// ```
    ///
    /// # [Guarantees](crate#guarantees)
    ///
    /// - `result == min(data.len(), old(self).len())`
    /// - `data == old(self).queue[..result] ++ old(data)[result..]`
    /// - `self.queue == old(self).queue[result..]`
    #[must_use]
    pub fn dequeue_slice(&mut self, data: &mut [T]) -> usize
    where
        T: Copy,
    {
        let capacity = self.storage.count();
        self.head.dequeue_slice(self.storage.part(0, capacity), data)
    }
}

/// Elements at an offset, counted from the first free one or from the first one in the queue.
impl<T, S: Storage<T>> RingOver<T, S> {
    /// Returns how many elements `get_unallocated` would lend. Ask before that call: the ring is
    /// borrowed while a part of it is lent. (Not in smoltcp.)
    ///
    /// ```
    /// # use net_base::storage::RingBuffer;
    /// # let mut storage = [0u8; 4];
    /// # let mut ring = RingBuffer::new(&mut storage[..]);
    /// ring.enqueue_unallocated(3);
    /// ring.dequeue_allocated(2);
    /// // The first free element is at the storage's end, the others at its beginning.
    /// assert_eq!((ring.contiguous_unallocated(0, 3), ring.contiguous_unallocated(1, 3)), (1, 2));
    /// ```
    #[must_use]
    pub fn contiguous_unallocated(&self, offset: usize, size: usize) -> usize {
        self.head.unallocated(self.capacity(), offset, size).contiguous
    }

    /// Lends at most `size` free elements from the one at `offset` on, as many as are contiguous;
    /// none if `offset` is past the window. They stay free.
    ///
    /// ```
    /// # use net_base::storage::RingBuffer;
    /// # let mut storage = [0u8; 4];
    /// # let mut ring = RingBuffer::new(&mut storage[..]);
    /// ring.get_unallocated(1, 2).copy_from_slice(b"bc");
    /// ring.enqueue_unallocated(3);
    /// assert_eq!(ring.get_allocated(1, 2), b"bc");
    /// assert_eq!(ring.get_unallocated(2, 1), b"");
    /// ```
    ///
    /// # [Guarantees](crate#guarantees)
    ///
    /// - if `offset < old(self).window()` and `0 < size`, then `0 < result.len()`
    /// - `result == old(self).spare[offset..][..result.len()]`
    #[must_use]
    pub fn get_unallocated(&mut self, offset: usize, size: usize) -> &mut [T] {
        let span = self.head.unallocated(self.capacity(), offset, size);
        self.storage.part_mut(span.from, span.from + span.contiguous)
    }

    /// Copies as many elements of `data` as there is room for to the free elements from the one at
    /// `offset` on, and returns how many; 0 if `offset` is past the window. Nothing is enqueued.
    ///
    /// ```
    /// # use net_base::storage::RingBuffer;
    /// # let mut storage = [0u8; 4];
    /// # let mut ring = RingBuffer::new(&mut storage[..]);
    /// assert_eq!(ring.write_unallocated(2, b"cdef"), 2);
    /// assert_eq!(ring.write_unallocated(0, b"ab"), 2);
    /// ring.enqueue_unallocated(4);
    /// assert_eq!(ring.get_allocated(0, 4), b"abcd");
    /// ```
    ///
    /// # [Guarantees](crate#guarantees)
    ///
    /// - `result == min(data.len(), old(self).window().saturating_sub(offset))`
    #[must_use]
    pub fn write_unallocated(&mut self, offset: usize, data: &[T]) -> usize
    where
        T: Copy,
    {
        let capacity = self.storage.count();
        self.head.write_unallocated(self.storage.part_mut(0, capacity), offset, data)
    }

    /// Enqueues the next `count` free elements with the values that they have.
    ///
    /// ```
    /// # use net_base::storage::RingBuffer;
    /// # let mut storage = *b"abcd";
    /// # let mut ring = RingBuffer::new(&mut storage[..]);
    /// ring.enqueue_unallocated(2);
    /// assert_eq!(ring.get_allocated(0, 4), b"ab");
    /// ```
    ///
    /// # Panics
    ///
    /// Panics unless `count` is at most `window()`.
    #[track_caller]
    pub fn enqueue_unallocated(&mut self, count: usize) {
        assert!(count <= self.window(), "no room for so many elements");
        self.head.enqueue(self.storage.count(), count);
    }

    /// Shows at most `size` elements of the queue from the one at `offset` on, as many as are
    /// contiguous; none if `offset` is past the queue.
    ///
    /// ```
    /// # use net_base::storage::RingBuffer;
    /// # let mut storage = [0u8; 4];
    /// # let mut ring = RingBuffer::new(&mut storage[..]);
    /// assert_eq!(ring.enqueue_slice(b"abc"), 3);
    /// assert_eq!((ring.get_allocated(1, 9), ring.get_allocated(4, 9)), (&b"bc"[..], &b""[..]));
    /// ```
    ///
    /// # [Guarantees](crate#guarantees)
    ///
    /// - if `offset < self.len()` and `0 < size`, then `0 < result.len()`
    /// - `result == self.queue[offset..][..result.len()]`
    #[must_use]
    pub fn get_allocated(&self, offset: usize, size: usize) -> &[T] {
        let span = self.head.allocated(self.capacity(), offset, size);
        self.storage.part(span.from, span.from + span.contiguous)
    }

    /// Copies as many elements of the queue as `data` has room for, from the one at `offset` on, to
    /// the beginning of `data`, and returns how many; 0 if `offset` is past the queue. The rest of
    /// `data` stays as it is, and nothing is dequeued.
    ///
    /// ```
    /// # use net_base::storage::RingBuffer;
    /// # let mut storage = [0u8; 4];
    /// # let mut ring = RingBuffer::new(&mut storage[..]);
    /// assert_eq!(ring.enqueue_slice(b"abc"), 3);
    /// let mut into = *b"----";
    /// assert_eq!((ring.read_allocated(1, &mut into), &into), (2, b"bc--"));
    /// ```
    ///
    /// # [Guarantees](crate#guarantees)
    ///
    /// - `result == min(data.len(), old(self).len().saturating_sub(offset))`
    /// - `data == old(self).queue[offset..][..result] ++ old(data)[result..]`
    #[must_use]
    pub fn read_allocated(&mut self, offset: usize, data: &mut [T]) -> usize
    where
        T: Copy,
    {
        let capacity = self.storage.count();
        self.head.read_allocated(self.storage.part(0, capacity), offset, data)
    }

    /// Dequeues `count` elements.
    ///
    /// ```
    /// # use net_base::storage::RingBuffer;
    /// # let mut storage = [0u8; 4];
    /// # let mut ring = RingBuffer::new(&mut storage[..]);
    /// assert_eq!(ring.enqueue_slice(b"abc"), 3);
    /// ring.dequeue_allocated(2);
    /// assert_eq!(ring.get_allocated(0, 4), b"c");
    /// ```
    ///
    /// # Panics
    ///
    /// Panics unless `count` is at most `len()`.
    ///
    /// # [Guarantees](crate#guarantees)
    ///
    /// - `self.window() == old(self).window() + count`
    #[track_caller]
    pub fn dequeue_allocated(&mut self, count: usize) {
        assert!(count <= self.len(), "fewer elements are queued");
        self.head.dequeue(self.storage.count(), count);
    }
}

impl<T, S: Storage<T>> RingOver<T, S> {
    /// Moves the queue to the beginning of a larger storage, and returns the old storage. The other
    /// elements of the larger one stay as they are. (Not in smoltcp.)
    ///
    /// ```
    /// # use net_base::storage::RingBuffer;
    /// let mut ring = RingBuffer::new(vec![0u8; 4]);
    /// assert_eq!(ring.enqueue_slice(b"abcdef"), 4);
    /// ring.grow(vec![0; 16].into());
    /// assert_eq!((ring.enqueue_slice(b"ef"), ring.get_allocated(0, 9)), (2, &b"abcdef"[..]));
    /// ```
    ///
    /// # Panics
    ///
    /// Panics unless `larger` has at least `capacity()` elements.
    ///
    /// # [Guarantees](crate#guarantees)
    ///
    /// - `self.queue == old(self).queue`
    #[track_caller]
    pub fn grow(&mut self, mut larger: S) -> S
    where
        T: Copy,
    {
        assert!(larger.count() >= self.capacity(), "a smaller storage");
        let count = larger.count();
        let elements = larger.part_mut(0, count);
        let capacity = self.storage.count();
        self.head.move_queue(self.storage.part(0, capacity), elements);
        replace(&mut self.storage, larger)
    }
}

/// The queue, shown as std's `VecDeque` shows it. (Not in smoltcp.)
impl<T, S: Storage<T>> RingOver<T, S> {
    /// Shows the queue, in order, in two parts: the elements up to the storage's end, and those from
    /// its beginning on. The second part is empty unless the queue wraps.
    ///
    /// ```
    /// # use net_base::storage::RingBuffer;
    /// # let mut storage = [0u8; 4];
    /// # let mut ring = RingBuffer::new(&mut storage[..]);
    /// assert_eq!(ring.enqueue_slice(b"abc"), 3);
    /// ring.dequeue_allocated(2);
    /// assert_eq!(ring.enqueue_slice(b"def"), 3);
    /// assert_eq!(ring.as_slices(), (&b"cd"[..], &b"ef"[..]));
    /// ```
    ///
    /// # [Guarantees](crate#guarantees)
    ///
    /// - `result.0 ++ result.1 == self.queue`
    /// - if `self.len() != 0`, then `0 < result.0.len()`
    #[must_use]
    pub fn as_slices(&self) -> (&[T], &[T]) {
        // [ e f . . c d ] is c d and then e f.
        let from = self.head.read_at;
        let first = self.head.contiguous_queue(self.capacity());
        (self.storage.part(from, from + first), self.storage.part(0, self.head.length - first))
    }

    /// Returns an iterator over the queue, which shows the elements in order.
    ///
    /// ```
    /// # use net_base::storage::RingBuffer;
    /// # let mut storage = [0u8; 4];
    /// # let mut ring = RingBuffer::new(&mut storage[..]);
    /// assert_eq!(ring.enqueue_slice(b"abc"), 3);
    /// ring.dequeue_allocated(2);
    /// assert_eq!(ring.enqueue_slice(b"def"), 3);
    /// assert!(ring.iter().eq(b"cdef") && ring.iter().rev().eq(b"fedc"));
    /// ```
    #[must_use]
    pub fn iter(&self) -> Iter<'_, T> {
        let (first, second) = self.as_slices();
        Iter { first, second }
    }
}

impl<'a, T> From<ManagedSlice<'a, T>> for RingBuffer<'a, T> {
    /// Returns an empty ring over the storage, whose elements stay as they are.
    fn from(storage: ManagedSlice<'a, T>) -> Self {
        RingOver::over(storage)
    }
}

impl<'a, T> From<&'a mut [T]> for RingBuffer<'a, T> {
    /// Returns an empty ring over a slice that is lent, whose elements stay as they are.
    fn from(elements: &'a mut [T]) -> Self {
        RingOver::over(ManagedSlice::Borrowed(elements))
    }
}

impl<'a, T, const N: usize> From<&'a mut [T; N]> for RingBuffer<'a, T> {
    /// Returns an empty ring over an array that is lent, whose elements stay as they are.
    fn from(elements: &'a mut [T; N]) -> Self {
        RingOver::over(ManagedSlice::Borrowed(elements))
    }
}

#[cfg(feature = "alloc")]
impl<'a, T> From<Vec<T>> for RingBuffer<'a, T> {
    /// Returns an empty ring over a vector, whose elements stay as they are.
    fn from(elements: Vec<T>) -> Self {
        RingOver::over(ManagedSlice::Owned(elements))
    }
}

/// Resets each element once.
fn reset_each<T: Resettable>(elements: &mut [T]) {
    for element in elements.iter_mut() {
        element.reset();
    }
}
