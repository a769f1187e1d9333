// Written by tools/erase.py from crates/net_ffi/src/finite_receiver.rt: a change here would be lost.
use crate::exports::receiver::{has_next, is_plausible, KeptCounts};
use crate::exports::refusals::{
    SegmentStatus, NET_BASE_DONE, NET_BASE_OTHER_END, NET_BASE_REFUSED, NET_BASE_TOO_MANY_RUNS,
};
use crate::exports::Run;
use crate::exports::{FiniteError, FiniteReceiverHead};

#[inline(always)]
pub(crate) fn has_number(receiver: &FiniteReceiverHead) -> bool {
    has_next(&receiver.receiver) && receiver.receiver.next() < u64::MAX
}

#[inline(always)]
pub fn net_base_finite_receiver_segment(
    receiver: &mut FiniteReceiverHead,
    storage: &mut [u8],
    runs: &mut [Run],
    position: u64,
    bytes: &[u8],
    is_last: bool,
    counts: &mut KeptCounts,
) -> SegmentStatus {
    if !is_plausible(&receiver.receiver, storage.len(), runs.len()) {
        return NET_BASE_REFUSED;
    }
    match receiver.keep(storage, runs, position, bytes, is_last) {
        Ok(it) => {
            *counts = KeptCounts { kept: it.kept, queued: it.queued };
            NET_BASE_DONE
        }
        Err(FiniteError::TooManyHoles) => NET_BASE_TOO_MANY_RUNS,
        Err(FiniteError::OtherEnd) => NET_BASE_OTHER_END,
    }
}

#[inline(always)]
pub fn net_base_finite_receiver_window_end(
    receiver: &FiniteReceiverHead,
    capacity: usize,
    end: &mut u64,
) -> bool {
    if receiver.receiver.place.length > capacity || !has_number(receiver) {
        return false;
    }
    match receiver.window_end(capacity) {
        Some(position) => {
            *end = position;
            true
        }
        None => false,
    }
}
