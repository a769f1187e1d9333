// Written by tools/erase.py from crates/net_packets/src/head.rt: a change here would be lost.
//! The head of a packet queue, which is a queue without its storages: where packets are placed, and how
//! they are taken off.
//!
//! [`PacketsOver`](crate::storage::PacketsOver) places packets by the rule here. A caller that has slots and bytes
//! elsewhere, as a program in C, calls these functions with the number of slots, or the slots, and with
//! the number of bytes.
//!
//! What is `#[inline]` was chosen by counted instructions and bytes (docs/PERFORMANCE.md).

use crate::storage::RingHead;

/// The head of a packet queue: the heads of its two rings.
///
/// A packet uses one slot, and a gap one more, before it. A head is sound for storages if its heads are sound for them,
///. The other calls require a head that is sound for the number of slots
/// and of bytes that they take, and leave such a head. smoltcp has no such type.
#[repr(C)]
#[derive(Debug, Clone, Copy)]
pub struct PacketsHead {
    /// The head of the ring of slots.
    pub slots: RingHead,
    /// The head of the ring of bytes.
    pub bytes: RingHead,
}

/// Where a packet was placed.
#[repr(C)]
#[derive(Debug, Clone, Copy)]
pub struct PacketPlace {
    /// How many bytes are skipped before the packet: 0, or those up to the storage's end.
    pub gap: usize,
    /// The index of the slot of the gap. If the gap has 0 bytes, it has no slot, and this is `slot`.
    pub gap_slot: usize,
    /// The index of the packet's slot.
    pub slot: usize,
    /// The index of the packet's first byte.
    pub from: usize,
}

/// The calls that take the number of slots.
impl PacketsHead {
    /// Returns the head of a queue with no packets.
    #[inline]
    pub(crate) const fn new() -> Self {
        PacketsHead { slots: RingHead::new(), bytes: RingHead::new() }
    }

    /// Returns how many bytes are skipped before a packet of `size` bytes; `None` if there are no
    /// `size` contiguous free bytes, or no slot for the packet or its gap.
    #[inline]
    pub(crate) fn placement(
        self,
        slot_count: usize,
        capacity: usize,
        size: usize,
    ) -> Option<usize> {
        let contiguous = contiguous_if_placed(self.bytes, capacity);
        let gap = gap_for(size, contiguous, capacity - self.bytes.length);
        if_slots(slot_count - self.slots.length, gap)
    }

    /// Appends a packet of `size` bytes, and returns where its slots and its bytes are; `None`, and
    /// nothing changes, if [`placement`](PacketsHead::placement) returns that.
    ///
    /// An empty queue begins at the storage's beginning. The caller writes the size of the gap, if
    /// it has a slot, and size and header of the packet to their slots.
    #[inline]
    pub(crate) fn place(
        &mut self,
        slot_count: usize,
        capacity: usize,
        size: usize,
    ) -> Option<PacketPlace> {
        let gap = self.placement(slot_count, capacity, size)?;
        let used = slots_for(gap);
        let gap_slot = self.slots.index(slot_count, self.slots.length);
        debug_assert!(self.slots.length + (used - 1) <= slot_count);
        let slot = self.slots.index(slot_count, self.slots.length + (used - 1));
        self.slots.enqueue(slot_count, used);
        self.bytes.rewind_if_empty();
        debug_assert!(self.bytes.length + gap <= capacity);
        let from = self.bytes.index(capacity, self.bytes.length + gap);
        debug_assert!(gap + size <= capacity);
        self.bytes.enqueue(capacity, gap + size);
        Some(PacketPlace { gap, gap_slot, slot, from })
    }

    /// Takes the first slot and its `size` bytes off, and returns the index of the first of these
    /// bytes: of a gap before the first packet, or of the first packet.
    ///
    /// # Requires
    ///
    /// The head is sound, a slot is used, and at least `size` bytes are.
    #[inline]
    pub(crate) fn take(&mut self, slot_count: usize, capacity: usize, size: usize) -> usize {
        let from = self.bytes.read_at;
        self.slots.dequeue(slot_count, 1);
        self.bytes.dequeue(capacity, size);
        from
    }

    /// Takes the last `count` bytes off the last packet, after a closure or another program wrote
    /// fewer bytes than were placed. The caller lowers the size in the packet's slot.
    ///
    /// # Requires
    ///
    /// At least `count` bytes are used.
    #[inline]
    pub(crate) fn shorten_last(&mut self, count: usize) {
        self.bytes.drop_last(count);
    }
}

/// Returns how many free bytes are contiguous for a packet that is placed. In an empty ring all are
/// contiguous, since it is then read from the storage's beginning.
#[inline]
fn contiguous_if_placed(bytes: RingHead, capacity: usize) -> usize {
    if bytes.length == 0 {
        capacity
    } else {
        bytes.contiguous_window(capacity)
    }
}

/// Returns the gap before a packet of `size` bytes, if `window` bytes are free, of which the first
/// `contiguous` are contiguous; `None` if it does not fit.
#[inline]
fn gap_for(size: usize, contiguous: usize, window: usize) -> Option<usize> {
    // `p` are the bytes of the packet, `x` and `y` those of others, and `-` the gap.
    if size <= contiguous {
        // [ . . . x x x y y p p . ]
        Some(0)
    } else if size <= window - contiguous {
        // [ p p p x x x y y - - - ]
        Some(contiguous)
    } else {
        // [ . . . x x x y y . . . ]    four bytes have no room
        None
    }
}

/// Returns how many slots a packet after a gap of `gap` bytes uses.
#[inline]
pub(crate) fn slots_for(gap: usize) -> usize {
    if gap == 0 {
        1
    } else {
        2
    }
}

/// Returns the gap, if `free` slots are enough for it and its packet.
#[inline]
fn if_slots(free: usize, gap: Option<usize>) -> Option<usize> {
    gap.filter(|&gap| slots_for(gap) <= free)
}
