// Written by tools/erase.py from crates/net_bench_lib/src/dispatch.rt: a change here would be lost.
//! From the bytes that are read to the bytes that are written.

use crate::rattle::prelude::*;
// Why: A line of mode `stream` goes through `execute`. To `replay` it as a list of one is the same (law `calls`),
// and asks for memory once more. The line of an error is an `arrayvec`, since memory may be what is missing.

use crate::lines::asm::AsmSession;
use crate::lines::bench::run_lines;
use crate::lines::error::BenchError;
use crate::lines::mode::{Mode, ModeKind, MostRuns};
use crate::lines::ring::RingSession;
use crate::lines::stream::StreamSession;
use crate::rattle::std::alloc::Allocator;
use crate::rattle::std::io::{Read, Write};

/// Executes the lines that the reader gives, and writes the replies. It returns at the reader's
/// end, at a failed read or at the first fault. If the bytes of reader and writer are known to
/// contracts, as they are over memory:
pub fn run<A: Allocator + Copy, R: Read, W: Write>(
    alloc: A,
    mode: Mode,
    reader: &mut R,
    writer: &mut W,
) -> Result<(), BenchError> {
    match mode.kind() {
        ModeKind::Ring(capacity) => run_ring(alloc, capacity, reader, writer),
        ModeKind::Asm(MostRuns::Four) => run_lines(alloc, AsmSession::<4>::new(), reader, writer),
        ModeKind::Asm(MostRuns::ThirtyTwo) => {
            run_lines(alloc, AsmSession::<32>::new(), reader, writer)
        }
        ModeKind::Stream(first, capacity, most_runs) => {
            run_stream(alloc, first, capacity, most_runs, reader, writer)
        }
    }
}

/// Does what `run` does in mode `ring`, over `capacity` bytes of storage, all 0.
fn run_ring<A: Allocator + Copy, R: Read, W: Write>(
    alloc: A,
    capacity: usize,
    reader: &mut R,
    writer: &mut W,
) -> Result<(), BenchError> {
    let Ok(mut storage) = vec![in alloc; 0u8; capacity] else {
        return Err(BenchError::OutOfMemory);
    };
    run_lines(alloc, RingSession::new(&mut storage), reader, writer)
}

/// Runs mode `stream` over `capacity` bytes of zeroed storage, with at most `most_runs` held runs.
fn run_stream<A: Allocator + Copy, R: Read, W: Write>(
    alloc: A,
    first: u64,
    capacity: usize,
    most_runs: MostRuns,
    reader: &mut R,
    writer: &mut W,
) -> Result<(), BenchError> {
    let Ok(mut storage) = vec![in alloc; 0u8; capacity] else {
        return Err(BenchError::OutOfMemory);
    };
    // The storage of the second schedule, for which memory is taken when it begins.
    let mut second = Vec::new(alloc);
    match most_runs {
        MostRuns::Four => {
            let session = StreamSession::<A, 4>::new(first, &mut storage, &mut second);
            run_lines(alloc, session, reader, writer)
        }
        MostRuns::ThirtyTwo => {
            let session = StreamSession::<A, 32>::new(first, &mut storage, &mut second);
            run_lines(alloc, session, reader, writer)
        }
    }
}
