// Written by tools/erase.py from crates/net_ffi/src/results.rt: a change here would be lost.
use crate::exports::refusals::{
    Status, NET_BASE_ACKNOWLEDGEMENT_ONLY, NET_BASE_ANSWER, NET_BASE_DONE, NET_BASE_IGNORE,
    NET_BASE_OTHER_SIZE, NET_BASE_RESET, NET_BASE_TAKE, NET_BASE_TOO_LONG, NET_BASE_TOO_MANY_RUNS,
};
use crate::exports::Arrival;
use crate::storage::FragmentError;

#[inline(always)]
pub(crate) fn status_of_fragment(done: Result<(), FragmentError>) -> Status {
    match done {
        Ok(()) => NET_BASE_DONE,
        Err(FragmentError::TooManyHoles) => NET_BASE_TOO_MANY_RUNS,
        Err(FragmentError::TooLong) => NET_BASE_TOO_LONG,
        Err(FragmentError::OtherSize) => NET_BASE_OTHER_SIZE,
    }
}

#[inline(always)]
pub(crate) fn number_of(arrival: Arrival) -> Status {
    match arrival {
        Arrival::Take => NET_BASE_TAKE,
        Arrival::AcknowledgementOnly => NET_BASE_ACKNOWLEDGEMENT_ONLY,
        Arrival::Answer => NET_BASE_ANSWER,
        Arrival::Ignore => NET_BASE_IGNORE,
        Arrival::Reset => NET_BASE_RESET,
    }
}
