// Written by tools/erase.py from crates/net_packets/src/packet_buffer.rt: a change here would be lost.
//! A queue of packets, each with a header, over storage that is lent or owned.

use crate::storage::packet_metadata::PacketMetadata;
use crate::storage::packets_head::{PacketPlace, PacketsHead};
use crate::storage::{Empty, Full, ManagedSlice, Storage};
use core::marker::PhantomData;

/// A [`PacketBuffer`] over any storage: `M` has the slots and `B` the bytes.
///
/// A packet has a header and bytes that are contiguous in the storage. If a packet does not fit
/// before the storage's end, it is placed at the storage's beginning, and the bytes before the end
/// are skipped as its gap. A packet uses one slot, and a gap, which never has 0 bytes, one more.
/// Packets leave in the order in which they came.
///
/// ```text
/// bytes    y y y y y y x x x x x x x x - -     x of 8 bytes, then y of 6 after a gap of 2
/// slots    x, gap, y
/// ```
///
/// In guarantees `contents` has the packets in order, as pairs of a header and bytes. `head_bytes`
/// has the bytes of the first one, and `++` joins lists.
#[derive(Clone)]
pub struct PacketsOver<H, M: Storage<PacketMetadata<H>>, B: Storage<u8>> {
    // Invariant: the head is sound for the storages. The slots in use are packets and gaps, whose sizes
    // add up to the bytes in use. A packet is contiguous; a gap has bytes, ends at the storage's end, and
    // has a packet after it.
    head: PacketsHead,
    slots: M,
    bytes: B,
    headers: PhantomData<H>,
}

/// A first-in, first-out queue of whole packets, each with a header, over storage that is lent or
/// owned. Its methods are those of [`PacketsOver`].
///
/// It serves sockets of datagrams, such as those of UDP and ICMP. It refuses a packet that doesn't
/// fit: it returns an error, and changes nothing.
///
/// ```
/// use net_base::storage::{Full, PacketBuffer, PacketMetadata};
///
/// let mut slots = [PacketMetadata::EMPTY; 4];
/// let mut bytes = [0u8; 16];
/// let mut queue = PacketBuffer::new(&mut slots[..], &mut bytes[..]);
/// queue.enqueue(3, 53u16)?.copy_from_slice(b"abc");
/// assert_eq!(queue.enqueue(14, 54), Err(Full));
/// let (port, payload) = queue.dequeue().expect("a packet is queued");
/// assert!(port == 53 && payload == b"abc");
/// # Ok::<(), Full>(())
/// ```
pub type PacketBuffer<'a, H> =
    PacketsOver<H, ManagedSlice<'a, PacketMetadata<H>>, ManagedSlice<'a, u8>>;

/// Making, emptying and measuring a queue.
impl<H, M: Storage<PacketMetadata<H>>, B: Storage<u8>> PacketsOver<H, M, B> {
    /// Returns an empty queue over storage of any type. (Not in smoltcp.) [`PacketBuffer::new`]
    /// takes slices, vectors or boxes.
    ///
    /// ```
    /// # use net_base::storage::{PacketMetadata, PacketsOver};
    /// let mut slots = [PacketMetadata::EMPTY; 4];
    /// let mut bytes = [0u8; 16];
    /// let mut queue = PacketsOver::over(&mut slots[..], &mut bytes[..]);
    /// assert_eq!(queue.push_slice(53u16, b"abc"), Ok(()));
    /// ```
    pub const fn over(slots: M, bytes: B) -> Self {
        PacketsOver { head: PacketsHead::new(), slots, bytes, headers: PhantomData }
    }

    /// Returns whether the queue has no packets.
    ///
    /// ```
    /// # use net_base::storage::{PacketBuffer, PacketMetadata};
    /// # let mut slots = [PacketMetadata::EMPTY; 4];
    /// # let mut bytes = [0u8; 16];
    /// # let mut queue = PacketBuffer::new(&mut slots[..], &mut bytes[..]);
    /// assert!(queue.is_empty());
    /// assert!(queue.enqueue(0, ()).is_ok());
    /// assert!(!queue.is_empty());
    /// ```
    #[inline]
    #[must_use]
    pub fn is_empty(&self) -> bool {
        self.head.slots.length == 0
    }

    /// Returns whether no slot is free. A queue that is not full still refuses a packet if there
    /// are too few free bytes, or no slot for its gap.
    ///
    /// ```
    /// # use net_base::storage::{PacketBuffer, PacketMetadata};
    /// # let mut slots = [PacketMetadata::EMPTY; 1];
    /// # let mut bytes = [0u8; 16];
    /// # let mut queue = PacketBuffer::new(&mut slots[..], &mut bytes[..]);
    /// assert!(queue.enqueue(2, ()).is_ok());
    /// assert!(queue.is_full());
    /// ```
    #[inline]
    #[must_use]
    pub fn is_full(&self) -> bool {
        self.head.slots.length == self.slots.count()
    }

    /// Returns whether a packet of `size` bytes can be appended. (Not in smoltcp.)
    #[inline]
    #[must_use]
    pub(crate) fn has_room(&self, size: usize) -> bool {
        self.placement(size).is_some()
    }

    /// Returns the number of slots.
    ///
    /// ```
    /// # use net_base::storage::{PacketBuffer, PacketMetadata};
    /// # let mut slots = [PacketMetadata::<()>::EMPTY; 4];
    /// # let mut bytes = [0u8; 16];
    /// assert_eq!(PacketBuffer::new(&mut slots[..], &mut bytes[..]).packet_capacity(), 4);
    /// ```
    #[inline]
    #[must_use]
    pub fn packet_capacity(&self) -> usize {
        self.slots.count()
    }

    /// Returns the number of bytes of the storage, used or not.
    ///
    /// ```
    /// # use net_base::storage::{PacketBuffer, PacketMetadata};
    /// # let mut slots = [PacketMetadata::<()>::EMPTY; 4];
    /// # let mut bytes = [0u8; 16];
    /// assert_eq!(PacketBuffer::new(&mut slots[..], &mut bytes[..]).payload_capacity(), 16);
    /// ```
    #[inline]
    #[must_use]
    pub fn payload_capacity(&self) -> usize {
        self.bytes.count()
    }

    /// Returns the number of bytes that packets take, gaps included. A call that drops the gap
    /// before the first packet lowers this number.
    ///
    /// ```
    /// # use net_base::storage::{PacketBuffer, PacketMetadata};
    /// # let mut slots = [PacketMetadata::EMPTY; 4];
    /// # let mut bytes = [0u8; 16];
    /// # let mut queue = PacketBuffer::new(&mut slots[..], &mut bytes[..]);
    /// assert!(queue.enqueue(3, ()).is_ok());
    /// assert_eq!(queue.payload_bytes_count(), 3);
    /// ```
    #[inline]
    #[must_use]
    pub fn payload_bytes_count(&self) -> usize {
        self.head.bytes.length
    }

    /// Returns the number of slots used: one for each packet and one for each gap. (Not in
    /// smoltcp.)
    ///
    /// ```
    /// # use net_base::storage::{PacketBuffer, PacketMetadata};
    /// # let mut slots = [PacketMetadata::EMPTY; 4];
    /// # let mut bytes = [0u8; 16];
    /// # let mut queue = PacketBuffer::new(&mut slots[..], &mut bytes[..]);
    /// assert!(queue.enqueue(3, ()).is_ok());
    /// assert_eq!(queue.slots_used(), 1);
    /// ```
    #[inline]
    #[must_use]
    pub fn slots_used(&self) -> usize {
        self.head.slots.length
    }

    /// Returns how many packets the queue has. It looks at each slot in use, to leave out the gaps.
    /// (Not in smoltcp.)
    ///
    /// ```
    /// # use net_base::storage::{PacketBuffer, PacketMetadata};
    /// # let mut slots = [PacketMetadata::EMPTY; 4];
    /// # let mut bytes = [0u8; 16];
    /// # let mut queue = PacketBuffer::new(&mut slots[..], &mut bytes[..]);
    /// assert!(queue.enqueue(3, ()).is_ok());
    /// assert_eq!(queue.len(), 1);
    /// ```
    #[must_use]
    pub fn len(&self) -> usize {
        let from = self.head.slots.read_at;
        let cut = self.head.slots.contiguous_queue(self.slots.count());
        let first = self.slots.part(from, from + cut);
        let second = self.slots.part(0, self.head.slots.length - cut);
        let count = count_packets(first) + count_packets(second);
        debug_assert!(count <= self.head.slots.length);
        count
    }

    /// Empties the queue. The bytes of the storage stay as they are. It is unspecified when headers
    /// are dropped.
    ///
    /// In smoltcp this call is private.
    ///
    /// ```
    /// # use net_base::storage::{PacketBuffer, PacketMetadata};
    /// # let mut slots = [PacketMetadata::EMPTY; 4];
    /// # let mut bytes = [0u8; 16];
    /// # let mut queue = PacketBuffer::new(&mut slots[..], &mut bytes[..]);
    /// assert!(queue.enqueue(3, ()).is_ok());
    /// queue.reset();
    /// assert!(queue.is_empty());
    /// ```
    pub fn reset(&mut self) {
        self.head = PacketsHead::new();
    }
}

/// Appending packets.
impl<H: Sized, M: Storage<PacketMetadata<H>>, B: Storage<u8>> PacketsOver<H, M, B> {
    /// Appends a packet of `size` bytes, and lends them as the storage has them. An empty queue
    /// starts over at the storage's beginning.
    ///
    /// ```
    /// # use net_base::storage::{Full, PacketBuffer, PacketMetadata};
    /// # let mut slots = [PacketMetadata::EMPTY; 4];
    /// # let mut bytes = [0u8; 16];
    /// # let mut queue = PacketBuffer::new(&mut slots[..], &mut bytes[..]);
    /// queue.enqueue(3, 1)?.copy_from_slice(b"abc");
    /// assert_eq!(queue.peek().ok(), Some((&1, &b"abc"[..])));
    /// # Ok::<(), Full>(())
    /// ```
    ///
    /// # Errors
    ///
    /// `Full` if there are no `size` contiguous free bytes, or no slot for the packet or its gap.
    /// Then the header is dropped, and nothing changes. smoltcp can leave a gap with no packet
    /// then.
    ///
    /// # [Guarantees](crate#guarantees)
    ///
    /// - on `Ok(r)`: `r.len() == size`
    pub fn enqueue(&mut self, size: usize, header: H) -> Result<&mut [u8], Full> {
        let Ok(()) = self.place(size, header) else {
            return Err(Full);
        };
        Ok(self.last_part_mut(size))
    }

    /// Appends a packet of `size` bytes, as [`PacketsOver::enqueue`] does, of which this is the
    /// first step: [`PacketsOver::last_mut`] lends the bytes.
    ///
    /// # Errors
    ///
    /// `Full` if [`PacketsOver::enqueue`] returns it. Then the header is dropped, and nothing
    /// changes.
    ///
    /// # [Guarantees](crate#guarantees)
    ///
    /// - on `Ok`: `self.contents == old(self).contents ++ [(header, self.last_bytes)]`
    /// - on `Err`: `self == old(self)`
    pub(crate) fn place(&mut self, size: usize, header: H) -> Result<(), Full> {
        let slot_count = self.slots.count();
        let capacity = self.bytes.count();
        let mut head = self.head;
        let Some(place) = head.place(slot_count, capacity, size) else {
            return Err(Full);
        };
        // The head is written last: if the drop of a header that was in a slot panics, as in Rust it
        // may, the queue is as it was.
        write_slots(&mut self.slots, place, size, header);
        self.head = head;
        Ok(())
    }

    /// Appends a packet whose bytes are `data`, as [`PacketsOver::enqueue`] does. (Not in smoltcp.)
    ///
    /// ```
    /// # use net_base::storage::{Full, PacketBuffer, PacketMetadata};
    /// # let mut slots = [PacketMetadata::EMPTY; 4];
    /// # let mut bytes = [0u8; 16];
    /// # let mut queue = PacketBuffer::new(&mut slots[..], &mut bytes[..]);
    /// assert_eq!(queue.push_slice(1, b"abc"), Ok(()));
    /// assert_eq!(queue.push_slice(2, &[0; 14]), Err(Full));
    /// ```
    ///
    /// # Errors
    ///
    /// `Full` if [`PacketsOver::enqueue`] returns it. Then the header is dropped, and nothing
    /// changes.
    ///
    /// # [Guarantees](crate#guarantees)
    ///
    /// - on `Ok`: `self.contents == old(self).contents ++ [(header, data)]`
    /// - on `Err`: `self == old(self)`
    pub fn push_slice(&mut self, header: H, data: &[u8]) -> Result<(), Full> {
        self.place(data.len(), header)?;
        self.last_part_mut(data.len()).copy_from_slice(data);
        Ok(())
    }

    /// Appends a packet that `f` writes. `f` is lent `max_size` bytes, and returns how many of the
    /// first ones are the packet. That number is returned.
    ///
    /// smoltcp places these packets by a rule of its own and can take more than `max_size` bytes.
    ///
    /// ```
    /// # use net_base::storage::{PacketBuffer, PacketMetadata};
    /// # let mut slots = [PacketMetadata::EMPTY; 4];
    /// # let mut bytes = [0u8; 16];
    /// # let mut queue = PacketBuffer::new(&mut slots[..], &mut bytes[..]);
    /// let written = queue.enqueue_with_infallible(8, 1, |payload| {
    ///     payload[..3].copy_from_slice(b"abc");
    ///     3
    /// });
    /// assert_eq!(written, Ok(3));
    /// assert_eq!(queue.peek().ok(), Some((&1, &b"abc"[..])));
    /// ```
    ///
    /// # Errors
    ///
    /// `Full` if [`PacketsOver::enqueue`] returns it for `max_size` bytes. Then the header is
    /// dropped, `f` isn't called, and nothing changes.
    ///
    /// # Panics
    ///
    /// Panics unless `f` returns at most `max_size`.
    #[track_caller]
    pub fn enqueue_with_infallible<'b, F: FnOnce(&'b mut [u8]) -> usize>(
        &'b mut self,
        max_size: usize,
        header: H,
        f: F,
    ) -> Result<usize, Full> {
        let slot_count = self.slots.count();
        let capacity = self.bytes.count();
        let mut head = self.head;
        let Some(place) = head.place(slot_count, capacity, max_size) else {
            return Err(Full);
        };
        let count = f(self.bytes.part_mut(place.from, place.from + max_size));
        assert!(count <= max_size, "more bytes than were lent");
        head.shorten_last(max_size - count);
        // The head is written last, as in `place`.
        write_slots(&mut self.slots, place, count, header);
        self.head = head;
        Ok(count)
    }
}

/// Reading the first packet, and taking it off.
impl<H: Sized, M: Storage<PacketMetadata<H>>, B: Storage<u8>> PacketsOver<H, M, B> {
    /// Calls `f` on the header and the bytes of the first packet, and drops its gap. If `f` returns
    /// `Ok`, the packet is taken off; if it returns `Err`, the packet stays first, with what `f`
    /// wrote to its header and bytes.
    ///
    /// ```
    /// # use net_base::storage::{Full, PacketBuffer, PacketMetadata};
    /// # let mut slots = [PacketMetadata::EMPTY; 4];
    /// # let mut bytes = [0u8; 16];
    /// # let mut queue = PacketBuffer::new(&mut slots[..], &mut bytes[..]);
    /// queue.enqueue(3, 1)?.copy_from_slice(b"abc");
    /// assert_eq!(queue.dequeue_with(|_, _| Err::<(), _>("later")), Ok(Err("later")));
    /// assert_eq!(queue.dequeue_with(|header, payload| Ok::<_, ()>((*header, payload[0]))), Ok(Ok((1, b'a'))));
    /// assert!(queue.is_empty());
    /// # Ok::<(), Full>(())
    /// ```
    ///
    /// # Errors
    ///
    /// `Empty` if the queue has no packets. Then `f` isn't called, and nothing changes.
    pub fn dequeue_with<'c, R, E, F: FnOnce(&mut H, &'c mut [u8]) -> Result<R, E>>(
        &'c mut self,
        f: F,
    ) -> Result<Result<R, E>, Empty> {
        self.skip();
        if self.head.slots.length == 0 {
            return Err(Empty);
        }
        let slot_count = self.slots.count();
        let capacity = self.bytes.count();
        let from = self.head.bytes.read_at;
        let slot = self.slots.element_mut(self.head.slots.read_at);
        let size = slot.size;
        let Some(header) = slot.header.as_mut() else {
            return Err(Empty);
        };
        let answer = f(header, self.bytes.part_mut(from, from + size));
        if answer.is_ok() {
            self.head.take(slot_count, capacity, size);
        }
        Ok(answer)
    }

    /// Takes the first packet and its gap off, returns its header and lends its bytes.
    ///
    /// ```
    /// # use net_base::storage::{Empty, Full, PacketBuffer, PacketMetadata};
    /// # let mut slots = [PacketMetadata::EMPTY; 4];
    /// # let mut bytes = [0u8; 16];
    /// # let mut queue = PacketBuffer::new(&mut slots[..], &mut bytes[..]);
    /// queue.enqueue(3, 1)?.copy_from_slice(b"abc");
    /// let (header, payload) = queue.dequeue().unwrap();
    /// assert_eq!((header, &payload[..]), (1, &b"abc"[..]));
    /// assert_eq!(queue.dequeue(), Err(Empty));
    /// # Ok::<(), Full>(())
    /// ```
    ///
    /// # Errors
    ///
    /// `Empty` if the queue has no packets. Then nothing changes.
    ///
    /// # [Guarantees](crate#guarantees)
    ///
    /// - on `Ok(r)`: `old(self).contents == [(r.0, r.1)] ++ old(self).contents[1..]`
    pub fn dequeue(&mut self) -> Result<(H, &mut [u8]), Empty> {
        let Ok((header, size)) = self.take() else {
            return Err(Empty);
        };
        Ok((header, self.last_dequeued_mut(size)))
    }

    /// Takes the first packet and its gap off, and returns its header and how many bytes it has, as
    /// [`PacketsOver::dequeue`] does, of which this is the first step:
    /// [`PacketsOver::last_dequeued_mut`] lends the bytes.
    ///
    /// # Errors
    ///
    /// `Empty` if the queue has no packets. Then nothing changes.
    ///
    /// # [Guarantees](crate#guarantees)
    ///
    /// - on `Ok(r)`: `old(self).contents == [(r.0, last_dequeued_bytes(self, r.1))] ++ self.contents`
    /// - on `Ok`: `self.contents == old(self).contents[1..]`
    pub(crate) fn take(&mut self) -> Result<(H, usize), Empty> {
        self.skip();
        let Some((header, size)) = self.take_first() else {
            return Err(Empty);
        };
        Ok((header, size))
    }

    /// Lends the `size` bytes before the read index: those of the packet that was taken off last.
    ///
    /// # Requires
    ///
    /// The `size` bytes before the read index are contiguous and none is a packet's, as after a
    /// call of [`PacketsOver::take`] that returned `size`.
    #[track_caller]
    pub(crate) fn last_dequeued_mut(&mut self, size: usize) -> &mut [u8] {
        let capacity = self.bytes.count();
        assert!(size <= capacity - self.head.bytes.length, "the bytes are not free");
        let from = self.head.bytes.last_dequeued_index(capacity, size);
        assert!(size <= capacity - from, "the bytes are not contiguous");
        self.bytes.part_mut(from, from + size)
    }

    /// Takes the first packet and its gap off, copies as many of its bytes as `into` has room for,
    /// and returns its header and how many bytes were copied. Bytes that don't fit are lost.
    ///
    /// (Not in smoltcp.)
    ///
    /// ```
    /// # use net_base::storage::{PacketBuffer, PacketMetadata};
    /// # let mut slots = [PacketMetadata::EMPTY; 4];
    /// # let mut bytes = [0u8; 16];
    /// # let mut queue = PacketBuffer::new(&mut slots[..], &mut bytes[..]);
    /// assert_eq!(queue.push_slice(1, b"abc"), Ok(()));
    /// let mut into = *b"-----";
    /// assert_eq!((queue.pop_slice(&mut into), &into), (Ok((1, 3)), b"abc--"));
    /// ```
    ///
    /// # Errors
    ///
    /// `Empty` if the queue has no packets. Then nothing changes.
    ///
    /// # [Guarantees](crate#guarantees)
    ///
    /// - on `Ok(r)`: `r.1 == min(head_bytes(old(self).contents).len(), into.len())`
    /// - on `Ok(r)`: `into == head_bytes(old(self).contents)[..r.1] ++ old(into)[r.1..]`
    /// - on `Ok`: `self.contents == old(self).contents[1..]`
    pub fn pop_slice(&mut self, into: &mut [u8]) -> Result<(H, usize), Empty> {
        let (header, size) = self.take()?;
        let count = copy(into, self.last_dequeued_mut(size));
        Ok((header, count))
    }

    /// Shows the header and the bytes of the first packet, and drops its gap.
    ///
    /// ```
    /// # use net_base::storage::{Full, PacketBuffer, PacketMetadata};
    /// # let mut slots = [PacketMetadata::EMPTY; 4];
    /// # let mut bytes = [0u8; 16];
    /// # let mut queue = PacketBuffer::new(&mut slots[..], &mut bytes[..]);
    /// queue.enqueue(3, 1)?.copy_from_slice(b"abc");
    /// assert_eq!(queue.peek(), Ok((&1, &b"abc"[..])));
    /// assert_eq!(queue.peek(), Ok((&1, &b"abc"[..])));
    /// # Ok::<(), Full>(())
    /// ```
    ///
    /// # Errors
    ///
    /// `Empty` if the queue has no packets. Then nothing changes.
    ///
    /// # [Guarantees](crate#guarantees)
    ///
    /// - on `Ok(r)`: `old(self).contents == [(r.0, r.1)] ++ old(self).contents[1..]`
    pub fn peek(&mut self) -> Result<(&H, &[u8]), Empty> {
        self.skip();
        self.first()
    }
}

/// Steps that the calls share.
impl<H, M: Storage<PacketMetadata<H>>, B: Storage<u8>> PacketsOver<H, M, B> {
    /// Returns the gap before a packet of `size` bytes, if it can be placed.
    #[inline]
    fn placement(&self, size: usize) -> Option<usize> {
        self.head.placement(self.slots.count(), self.bytes.count(), size)
    }

    /// Returns the gap before the first packet, or 0 if there is none.
    #[inline]
    fn first_gap(&self) -> usize {
        if self.head.slots.length == 0 {
            return 0;
        }
        let slot = self.slots.element(self.head.slots.read_at);
        match &slot.header {
            Some(_header) => 0,
            None => slot.size,
        }
    }

    /// Drops the gap before the first packet.
    #[inline]
    fn skip(&mut self) {
        let gap = self.first_gap();
        if gap > 0 {
            self.head.take(self.slots.count(), self.bytes.count(), gap);
        }
    }

    /// Returns the first packet, which has no gap before it.
    fn first(&self) -> Result<(&H, &[u8]), Empty> {
        if self.head.slots.length == 0 {
            return Err(Empty);
        }
        let slot = self.slots.element(self.head.slots.read_at);
        let from = self.head.bytes.read_at;
        match &slot.header {
            Some(header) => Ok((header, self.bytes.part(from, from + slot.size))),
            None => Err(Empty),
        }
    }
}

impl<H: Sized, M: Storage<PacketMetadata<H>>, B: Storage<u8>> PacketsOver<H, M, B> {
    /// Lends the last `size` bytes, which are those of the last packet.
    fn last_part_mut(&mut self, size: usize) -> &mut [u8] {
        let before = self.head.bytes.length - size;
        let from = self.head.bytes.index(self.bytes.count(), before);
        self.bytes.part_mut(from, from + size)
    }

    /// Takes the first packet, which has no gap before it, off, and returns its header and size.
    #[allow(clippy::question_mark)] // its proof has a return of its own
    fn take_first(&mut self) -> Option<(H, usize)> {
        if self.head.slots.length == 0 {
            return None;
        }
        let Some((size, header)) = lift_header(&mut self.slots, self.head.slots.read_at) else {
            return None;
        };
        let slot_count = self.slots.count();
        let capacity = self.bytes.count();
        self.head.take(slot_count, capacity, size);
        Some((header, size))
    }
}

/// Returns how many of the slots are those of packets, not of gaps.
fn count_packets<H>(slots: &[PacketMetadata<H>]) -> usize {
    slots.iter().filter(|slot| slot.header.is_some()).count()
}

/// Copies as many bytes as both have, and returns how many.
fn copy(into: &mut [u8], bytes: &[u8]) -> usize {
    let count = bytes.len().min(into.len());
    into[..count].copy_from_slice(&bytes[..count]);
    count
}

/// Writes the slots of a packet of `size` bytes and of its gap, if that has one.
#[inline]
fn write_slots<H: Sized, M: Storage<PacketMetadata<H>>>(
    slots: &mut M,
    place: PacketPlace,
    size: usize,
    header: H,
) {
    if place.gap > 0 {
        *slots.element_mut(place.gap_slot) = PacketMetadata { size: place.gap, header: None };
    }
    *slots.element_mut(place.slot) = PacketMetadata { size, header: Some(header) };
}

/// Takes the header out of the slot at the index `at`, and returns the slot's size and the header;
/// `None`, and nothing changes, if it has none.
fn lift_header<H: Sized, M: Storage<PacketMetadata<H>>>(
    slots: &mut M,
    at: usize,
) -> Option<(usize, H)> {
    let slot = slots.element_mut(at);
    let size = slot.size;
    let header = slot.header.take()?;
    Some((size, header))
}
