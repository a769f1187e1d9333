// Written by tools/erase.py from crates/net_ffi/src/heads/packets.rt: a change here would be lost.
use crate::exports::{PacketSlot, PacketsHead};

#[inline(always)]
pub fn net_base_packets_init(packets: &mut PacketsHead) {
    *packets = PacketsHead::new();
}

#[inline(always)]
pub fn net_base_packets_shorten_last(
    packets: &mut PacketsHead,
    slots: &mut [PacketSlot],
    capacity: usize,
    count: usize,
) -> bool {
    if !packets.is_sound(slots.len(), capacity) {
        return false;
    }
    packets.shorten_last_in(slots, capacity, count)
}
