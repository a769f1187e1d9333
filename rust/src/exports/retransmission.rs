// Written by tools/erase.py from crates/net_ffi/src/retransmission.rt: a change here would be lost.
use crate::time::Duration;

pub(crate) const FIRST_TIMEOUT: u64 = 1_000_000;

const MOST_TIMEOUT: u64 = 60_000_000;

#[repr(C)]
#[derive(Copy, Clone, Debug)]
pub struct TimeoutBounds {
    pub least: u64,
    pub most: u64,
    pub tick: u64,
    pub ack_delay: u64,
}

#[inline(always)]
pub(crate) fn given_or(number: u64, other: u64) -> u64 {
    if number == 0 {
        other
    } else {
        number
    }
}

#[inline(always)]
pub(crate) fn bounds_from(bounds: &TimeoutBounds) -> crate::exports::TimeoutBounds {
    crate::exports::TimeoutBounds {
        least: Duration::from_micros(given_or(bounds.least, FIRST_TIMEOUT)),
        most: Duration::from_micros(given_or(bounds.most, MOST_TIMEOUT)),
        tick: Duration::from_micros(bounds.tick),
        ack_delay: Duration::from_micros(bounds.ack_delay),
    }
}
