// Written by tools/erase.py from crates/net_packets/src/head.rt: a change here would be lost.
use crate::exports::for_c::packet_slot::PacketSlot;
use crate::storage::packets_head::*;

/// Where the first packet is.
#[repr(C)]
#[derive(Debug, Clone, Copy)]
pub struct FirstPacket {
    /// How many bytes are skipped before the packet.
    pub gap: usize,
    /// The index of the packet's slot.
    pub slot: usize,
    /// The index of the packet's first byte.
    pub from: usize,
    /// How many bytes the packet has.
    pub size: usize,
}

impl PacketsHead {
    /// Returns whether the head is sound for `slot_count` slots and `capacity` bytes.
    #[inline]
    pub(crate) fn is_sound(self, slot_count: usize, capacity: usize) -> bool {
        self.slots.is_sound(slot_count) && self.bytes.is_sound(capacity)
    }

    /// Returns whether `first` can be the first slot in use: its bytes are used and contiguous, and
    /// a gap has some and ends at the storage's end.
    #[inline]
    pub(crate) fn can_take(self, _slot_count: usize, capacity: usize, first: &PacketSlot) -> bool {
        let to_end = capacity - self.bytes.read_at;
        let fits = self.slots.length > 0 && first.size <= self.bytes.length && first.size <= to_end;
        fits && (first.is_gap == 0 || (first.size > 0 && first.size == to_end))
    }

    /// Takes the first slot in use, `first`, off with its bytes, and returns the index of the first of
    /// these bytes: of the gap before the first packet, or of the first packet.
    ///
    /// # Requires
    ///
    /// The head is sound, and [`can_take`](PacketsHead::can_take) returns true.
    #[inline]
    pub(crate) fn take_slot(
        &mut self,
        slot_count: usize,
        capacity: usize,
        first: &PacketSlot,
    ) -> usize {
        self.take(slot_count, capacity, first.size)
    }

    /// Returns whether `last` can be the slot of the last packet, and has at least `count` bytes.
    #[inline]
    fn can_shorten(self, last: &PacketSlot, count: usize) -> bool {
        self.slots.length > 0
            && last.is_gap == 0
            && last.size <= self.bytes.length
            && count <= last.size
    }

    /// Takes the last `count` bytes off the last packet, whose slot is `last`, and lowers the size
    /// there.
    #[inline]
    fn shorten_slot(&mut self, last: &mut PacketSlot, count: usize) {
        self.shorten_last(count);
        last.size -= count;
    }

    /// Takes the last `count` bytes off the last packet, lowers the size in its slot, and returns
    /// true. It is for a caller that wrote fewer bytes than it placed.
    ///
    /// Returns false, and changes nothing, if no slot is in use, if the last one is a gap's, or if
    /// its size is below `count` or above the number of bytes in use.
    #[inline]
    pub(crate) fn shorten_last_in(
        &mut self,
        slots: &mut [PacketSlot],
        _capacity: usize,
        count: usize,
    ) -> bool {
        if self.slots.length == 0 {
            return false;
        }
        let last = self.slots.index(slots.len(), self.slots.length - 1);
        if !self.can_shorten(&slots[last], count) {
            return false;
        }
        self.shorten_slot(&mut slots[last], count);
        true
    }

    /// Appends a packet of `size` bytes as [`place`](PacketsHead::place) does, and writes its slots.
    #[inline]
    pub(crate) fn enqueue(
        &mut self,
        slots: &mut [PacketSlot],
        capacity: usize,
        size: usize,
    ) -> Option<PacketPlace> {
        let place = self.place(slots.len(), capacity, size)?;
        write_slots(slots, place, size);
        Some(place)
    }

    /// Takes the first packet off, and the gap before it, and returns where it is.
    ///
    /// `None`, and nothing changes, if no slot is in use, or the first ones can't be those of a
    /// packet.
    #[inline]
    pub(crate) fn dequeue(&mut self, slots: &[PacketSlot], capacity: usize) -> Option<FirstPacket> {
        self.take_first(slots, capacity)
    }

    /// Returns where the first packet is.
    ///
    /// `None` if no slot is in use, or the first ones can't be those of a packet.
    #[inline]
    pub(crate) fn peek(self, slots: &[PacketSlot], capacity: usize) -> Option<FirstPacket> {
        let mut head = self;
        head.dequeue(slots, capacity)
    }

    /// Takes the first packet off, and the gap before it, and returns where it is.
    #[inline]
    fn take_first(&mut self, slots: &[PacketSlot], capacity: usize) -> Option<FirstPacket> {
        let mut head = *self;
        let gap = head.skip_gap(slots, capacity)?;
        let packet = head.take_packet(slots, capacity, gap)?;
        *self = head;
        Some(packet)
    }

    /// Takes the gap before the first packet off, if there is one, and returns how many bytes it
    /// has. `None`, and nothing changes, if no slot is in use, or the first one can't be a gap's.
    #[inline]
    fn skip_gap(&mut self, slots: &[PacketSlot], capacity: usize) -> Option<usize> {
        if self.slots.length == 0 {
            return None;
        }
        let first = &slots[self.slots.read_at];
        if first.is_gap == 0 {
            return Some(0);
        }
        if !self.can_take(slots.len(), capacity, first) {
            return None;
        }
        self.take_slot(slots.len(), capacity, first);
        Some(first.size)
    }

    /// Takes the first packet off, after a gap of `gap` bytes that is gone, and returns where it is.
    #[inline]
    fn take_packet(
        &mut self,
        slots: &[PacketSlot],
        capacity: usize,
        gap: usize,
    ) -> Option<FirstPacket> {
        if self.slots.length == 0 {
            return None;
        }
        let slot = self.slots.read_at;
        let first = &slots[slot];
        if first.is_gap != 0 || !self.can_take(slots.len(), capacity, first) {
            return None;
        }
        let from = self.take_slot(slots.len(), capacity, first);
        Some(FirstPacket { gap, slot, from, size: first.size })
    }
}

/// Writes the slots of a packet of `size` bytes and of its gap, if that has one.
#[inline]
fn write_slots(slots: &mut [PacketSlot], place: PacketPlace, size: usize) {
    if place.gap > 0 {
        slots[place.gap_slot] = PacketSlot { size: place.gap, is_gap: 1 };
    }
    slots[place.slot] = PacketSlot { size, is_gap: 0 };
}
