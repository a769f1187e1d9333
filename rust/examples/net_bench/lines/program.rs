// Written by tools/erase.py from crates/net_bench_lib/src/program.rt: a change here would be lost.
//! The program `net_bench`, from its words and streams to its exit status.

use crate::lines::dispatch::run;
use crate::lines::error::BenchError;
use crate::lines::mode::Mode;
use crate::lines::writer::write_text;
use crate::rattle::arrayvec::ArrayString;
use crate::rattle::prelude::*;
use crate::rattle::std::alloc::Allocator;
use crate::rattle::std::fmt::Write as _;
use crate::rattle::std::io::{Read, Write};

/// The line on standard error for words that name no mode.
const USAGE: &str = "usage: net_bench ring CAP | asm N | stream CAP N [FIRST]\n";

/// The bytes of the longest line that says an error, and some more.
const ERROR_ROOM: usize = 64;

/// Calls `run` in the mode that the words name and flushes the writer once; if `run` returned Ok, a
/// flush that fails is a failed write. An error is written to `errors` as a line; if `errors`
/// doesn't take it, nothing else changes. The result is the exit status: 0 if `run` and the flush
/// returned Ok, 1 after an error, and 2 if the words name no mode: then nothing is read, and only
/// the usage line is written, to `errors`.
pub fn serve<A: Allocator + Copy, R: Read, W: Write, E: Write>(
    alloc: A,
    words: &[String],
    reader: &mut R,
    writer: &mut W,
    errors: &mut E,
) -> u8 {
    let Some(mode) = Mode::from_words(words) else {
        let _ = write_text(errors, USAGE.as_bytes());
        return 2;
    };
    match run_and_flush(alloc, mode, reader, writer) {
        Ok(()) => 0,
        Err(error) => {
            tell(&error, errors);
            1
        }
    }
}

/// Calls `run`, and flushes the writer then.
fn run_and_flush<A: Allocator + Copy, R: Read, W: Write>(
    alloc: A,
    mode: Mode,
    reader: &mut R,
    writer: &mut W,
) -> Result<(), BenchError> {
    let outcome = run(alloc, mode, reader, writer);
    let flushed = writer.flush();
    if outcome.is_ok() && flushed.is_err() {
        return Err(BenchError::WriteFailed);
    }
    outcome
}

/// Writes the line that says an error, or a prefix of it before a write that fails. Tests show the line.
// The line is made on the stack, since memory may be what is missing.
fn tell<E: Write>(error: &BenchError, errors: &mut E) {
    let mut line = ArrayString::<ERROR_ROOM>::new();
    if writeln!(line, "{error}").is_ok() {
        let _ = write_text(errors, line.as_bytes());
    }
}
