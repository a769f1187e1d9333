// Written by tools/erase.py from crates/net_ffi/src/receiver.rt: a change here would be lost.
use crate::exports::ReceiverHead;

pub(crate) const RUNS: usize = 16;

#[repr(C)]
#[derive(Debug, Clone, Copy)]
pub struct KeptCounts {
    pub kept: usize,
    pub queued: usize,
}

#[inline(always)]
pub(crate) fn has_next(receiver: &ReceiverHead) -> bool {
    match receiver.first.checked_add(receiver.count_read) {
        Some(read) => receiver.place.length as u64 <= u64::MAX - read,
        None => false,
    }
}

#[inline(always)]
pub(crate) fn is_readable(receiver: &ReceiverHead, capacity: usize) -> bool {
    receiver.place.is_sound(capacity) && has_next(receiver)
}

#[inline(always)]
pub(crate) fn is_plausible(receiver: &ReceiverHead, capacity: usize, run_count: usize) -> bool {
    is_readable(receiver, capacity) && receiver.held.used <= run_count
}

#[inline(always)]
pub(crate) fn has_runs(receiver: &ReceiverHead, run_count: usize) -> bool {
    has_next(receiver) && receiver.held.used <= run_count
}
