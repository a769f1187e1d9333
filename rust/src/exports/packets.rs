// Written by tools/erase.py from crates/net_ffi/src/packets.rt: a change here would be lost.
// Why: Slots have no header in C. A slot of Rattle and Rust has the header in it, of a type that no export knows. So
// `PacketsOver` asks its head where a packet is placed, and writes its slots itself.

use crate::exports::refusals::no_number;
use crate::exports::{FirstPacket, PacketPlace, PacketSlot, PacketsHead};

#[inline(always)]
fn no_place() -> PacketPlace {
    PacketPlace { gap: 0, gap_slot: no_number(), slot: no_number(), from: no_number() }
}

#[inline(always)]
pub fn refused_packet_place() -> PacketPlace {
    PacketPlace { gap: no_number(), gap_slot: no_number(), slot: no_number(), from: no_number() }
}

#[inline(always)]
fn no_first() -> FirstPacket {
    FirstPacket { gap: 0, slot: no_number(), from: no_number(), size: 0 }
}

#[inline(always)]
pub fn refused_first_packet() -> FirstPacket {
    FirstPacket { gap: no_number(), slot: no_number(), from: no_number(), size: 0 }
}

#[inline(always)]
pub fn net_base_packets_enqueue(
    packets: &mut PacketsHead,
    slots: &mut [PacketSlot],
    capacity: usize,
    size: usize,
) -> PacketPlace {
    if !packets.is_sound(slots.len(), capacity) {
        return refused_packet_place();
    }
    match packets.enqueue(slots, capacity, size) {
        Some(place) => place,
        None => no_place(),
    }
}

#[inline(always)]
pub fn net_base_packets_dequeue(
    packets: &mut PacketsHead,
    slots: &[PacketSlot],
    capacity: usize,
) -> FirstPacket {
    if !packets.is_sound(slots.len(), capacity) {
        return refused_first_packet();
    }
    if packets.slots.length == 0 {
        return no_first();
    }
    match packets.dequeue(slots, capacity) {
        Some(first) => first,
        None => refused_first_packet(),
    }
}

#[inline(always)]
pub fn net_base_packets_peek(
    packets: &PacketsHead,
    slots: &[PacketSlot],
    capacity: usize,
) -> FirstPacket {
    if !packets.is_sound(slots.len(), capacity) {
        return refused_first_packet();
    }
    if packets.slots.length == 0 {
        return no_first();
    }
    match packets.peek(slots, capacity) {
        Some(first) => first,
        None => refused_first_packet(),
    }
}
