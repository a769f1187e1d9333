// Written by tools/erase.py from crates/net_ffi/src/refusals.rt: a change here would be lost.
use crate::exports::Span;

pub type Status = u32;

pub type FragmentStatus = u32;

pub type SizeStatus = u32;

pub type SegmentStatus = u32;

pub type ArrivalStatus = u32;

pub type AcknowledgedStatus = u32;

pub type ExpiredStatus = u32;

pub type OutgoingStatus = u32;

pub const NET_BASE_DONE: Status = 0;

pub const NET_BASE_TOO_MANY_RUNS: Status = 1;

pub const NET_BASE_REFUSED: Status = 2;

pub const NET_BASE_TOO_LONG: Status = 3;

pub const NET_BASE_OTHER_SIZE: Status = 4;

pub const NET_BASE_OTHER_END: Status = 5;

pub const NET_BASE_TAKE: Status = 6;

pub const NET_BASE_ACKNOWLEDGEMENT_ONLY: Status = 7;

pub const NET_BASE_ANSWER: Status = 8;

pub const NET_BASE_IGNORE: Status = 9;

pub const NET_BASE_RESET: Status = 10;

pub const NET_BASE_PROBE: Status = 11;

pub const NET_BASE_OVERDUE: Status = 13;

pub const NET_BASE_LOST: Status = 14;

pub const NET_BASE_OLD: Status = 15;

pub const NET_BASE_NOTHING: Status = 16;

#[inline(always)]
pub fn no_number() -> usize {
    usize::MAX
}

#[inline(always)]
pub fn refused_span() -> Span {
    Span { from: no_number(), count: 0, contiguous: 0 }
}
