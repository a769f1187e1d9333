// Written by tools/erase.py from crates/net_bench_lib/src/fault.rt: a change here would be lost.
//! Why a line has no reply.

use crate::lines::error::BenchError;
use crate::rattle::std::alloc::AllocError;

/// A fault of a line.
#[derive(Clone, Copy, Debug, PartialEq, Eq)]
pub enum Fault {
    /// It is not a line of the mode.
    BadCommand,
    /// The end of its range is above the greatest number.
    RangeTooLong,
    /// It has more than 4,096 bytes.
    LineTooLong,
    /// It begins a third schedule.
    TooManySchedules,
}

impl Fault {
    /// Returns the fault as an error, for the line of this number.
    pub fn at(self, number: u64) -> BenchError {
        match self {
            Fault::BadCommand => BenchError::BadCommand(number),
            Fault::RangeTooLong => BenchError::RangeTooLong(number),
            Fault::LineTooLong => BenchError::LineTooLong(number),
            Fault::TooManySchedules => BenchError::TooManySchedules(number),
        }
    }
}

/// Why a line has no reply.
#[derive(Debug)]
pub enum Refusal {
    /// It has this fault.
    Fault(Fault),
    /// A request for memory was refused.
    OutOfMemory,
}

impl Refusal {
    /// Returns the error that `run` returns for the line of this number.
    pub fn at(self, number: u64) -> BenchError {
        match self {
            Refusal::Fault(fault) => fault.at(number),
            Refusal::OutOfMemory => BenchError::OutOfMemory,
        }
    }
}

impl From<AllocError> for Refusal {
    fn from(_e: AllocError) -> Refusal {
        Refusal::OutOfMemory
    }
}
