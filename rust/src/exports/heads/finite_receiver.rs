// Written by tools/erase.py from crates/net_ffi/src/heads/finite_receiver.rt: a change here would be lost.
use crate::exports::finite_receiver::has_number;
use crate::exports::receiver::{has_next, has_runs};
use crate::exports::refusals::no_number;
use crate::exports::FiniteReceiverHead;
use crate::exports::Run;

#[inline(always)]
pub fn net_base_finite_receiver_init(receiver: &mut FiniteReceiverHead, first: u64) -> bool {
    if first == u64::MAX {
        return false;
    }
    *receiver = FiniteReceiverHead::new(first);
    true
}

#[inline(always)]
pub fn net_base_finite_receiver_is_sound(
    receiver: &FiniteReceiverHead,
    capacity: usize,
    runs: &[Run],
) -> bool {
    receiver.is_sound(capacity, runs)
}

#[inline(always)]
pub fn net_base_finite_receiver_can_end(
    receiver: &FiniteReceiverHead,
    runs: &[Run],
    position: u64,
) -> bool {
    if !has_runs(&receiver.receiver, runs.len()) {
        return false;
    }
    receiver.can_end(runs, position)
}

#[inline(always)]
pub fn net_base_finite_receiver_acknowledged(
    receiver: &FiniteReceiverHead,
    number: &mut u64,
) -> bool {
    if !has_number(receiver) {
        return false;
    }
    *number = receiver.acknowledged();
    true
}

#[inline(always)]
pub fn net_base_finite_receiver_has_read_all(receiver: &FiniteReceiverHead) -> bool {
    if !has_number(receiver) {
        return false;
    }
    receiver.has_read_all()
}

#[inline(always)]
pub fn net_base_finite_receiver_read(
    receiver: &mut FiniteReceiverHead,
    storage: &[u8],
    into: &mut [u8],
) -> usize {
    if !receiver.receiver.place.is_sound(storage.len()) || !has_next(&receiver.receiver) {
        return no_number();
    }
    receiver.read(storage, into)
}

#[inline(always)]
pub fn net_base_finite_receiver_remove(
    receiver: &mut FiniteReceiverHead,
    capacity: usize,
    count: usize,
) -> bool {
    if !receiver.receiver.place.is_sound(capacity)
        || count > receiver.receiver.place.length
        || !has_next(&receiver.receiver)
    {
        return false;
    }
    receiver.remove(capacity, count);
    true
}
