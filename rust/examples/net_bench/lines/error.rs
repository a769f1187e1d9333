// Written by tools/erase.py from crates/net_bench_lib/src/error.rt: a change here would be lost.
//! The errors that `run` returns.

use crate::rattle::std::alloc::AllocError;

/// An error of `run`. A number is that of the faulty line, counted from 1.
#[derive(Debug)]
pub enum BenchError {
    /// The line is not one of the mode.
    BadCommand(u64),
    /// The end of the line's range is above the greatest number.
    RangeTooLong(u64),
    /// The line has more than 4,096 bytes.
    LineTooLong(u64),
    /// The line begins a third schedule.
    TooManySchedules(u64),
    /// A request for memory was refused.
    OutOfMemory,
    /// A read returned an error, or 2^64 - 1 reads were made.
    ReadFailed,
    /// A write returned an error, or took no byte.
    WriteFailed,
}

impl From<AllocError> for BenchError {
    fn from(_e: AllocError) -> BenchError {
        BenchError::OutOfMemory
    }
}

crate::rattle::error_text!(BenchError, BenchError::BadCommand(field) => "line {0}: bad command" (field), BenchError::RangeTooLong(field) => "line {0}: range too long" (field), BenchError::LineTooLong(field) => "line {0}: line too long" (field), BenchError::TooManySchedules(field) => "line {0}: too many schedules" (field), BenchError::OutOfMemory => "out of memory", BenchError::ReadFailed => "read failed", BenchError::WriteFailed => "write failed");
