// Written by tools/erase.py from crates/net_bench_lib/src/bench.rt: a change here would be lost.
//! Lines in, replies out, for any mode.

use crate::lines::error::BenchError;
use crate::lines::fault::Fault;
use crate::lines::limits::{MAX_LINE, ROOM};
use crate::lines::session::Session;
use crate::lines::writer::write_text;
use crate::rattle::memchr::memchr;
use crate::rattle::prelude::*;
use crate::rattle::std::alloc::Allocator;
use crate::rattle::std::io::{Read, Write};

/// A mode's state, the number of the next line, and the replies that aren't written yet. `reply` is
/// memory for one, used again for each.
struct Bench<A: Allocator + Copy, S> {
    alloc: A,
    session: S,
    number: u64,
    reply: String<A>,
    replies: Vec<u8, A>,
}

impl<A: Allocator + Copy, S: Session<A>> Bench<A, S> {
    /// Executes a line, and adds its reply to the others.
    fn run_line(&mut self, line: &[u8]) -> Result<(), BenchError> {
        if line.len() > MAX_LINE {
            return Err(Fault::LineTooLong.at(self.number));
        }
        self.reply.clear();
        if let Err(refusal) = self.session.apply_line(self.alloc, line, &mut self.reply) {
            return Err(refusal.at(self.number));
        }
        self.replies.extend_from_slice(self.reply.as_bytes())?;
        self.number = self.number.saturating_add(1);
        Ok(())
    }

    /// Executes the lines that end in these bytes, and returns how many bytes the beginning of the
    /// next one has.
    fn run_ended_lines(&mut self, bytes: &[u8]) -> Result<usize, BenchError> {
        let mut rest = bytes;
        // The label is the loop's name in its proof.
        while let Some(at) = memchr(b'\n', rest) {
            self.run_line(&rest[..at])?;
            rest = &rest[at + 1..];
        }
        if rest.len() > MAX_LINE {
            return Err(Fault::LineTooLong.at(self.number));
        }
        Ok(rest.len())
    }

    /// Adds the closing text to the replies.
    fn close(&mut self) -> Result<(), BenchError> {
        let closing = self.session.closing_text();
        self.replies.extend_from_slice(closing.as_bytes())?;
        Ok(())
    }

    /// Executes the last line, if it has bytes, and adds its reply and the closing text.
    fn run_last_line(&mut self, line: &[u8]) -> Result<(), BenchError> {
        if line.is_empty() {
            return self.close();
        }
        self.run_line(line)?;
        self.close()
    }

    /// Does what `run_ended_lines` does, and writes the replies.
    fn take<W: Write>(&mut self, bytes: &[u8], writer: &mut W) -> Result<usize, BenchError> {
        let outcome = self.run_ended_lines(bytes);
        write_text(writer, &self.replies)?;
        self.replies.clear();
        outcome
    }

    /// Does what `run_last_line` does, and writes the replies.
    fn finish<W: Write>(&mut self, line: &[u8], writer: &mut W) -> Result<(), BenchError> {
        let outcome = self.run_last_line(line);
        write_text(writer, &self.replies)?;
        outcome
    }
}

/// Executes the lines that the reader gives, from their first to their last, and writes the replies
/// of those that end in the bytes of a read before the next one.
pub fn run_lines<A: Allocator + Copy, S: Session<A> + Sized, R: Read, W: Write>(
    alloc: A,
    session: S,
    reader: &mut R,
    writer: &mut W,
) -> Result<(), BenchError> {
    let mut bench =
        Bench { alloc, session, number: 1, reply: String::new(alloc), replies: Vec::new(alloc) };
    let mut buffer = [0u8; ROOM];
    // How many bytes of the next line are at the front of the buffer.
    let mut held = 0;
    // The bound shows that the loop ends; the label is the loop's name in its proof.
    for _ in 0..u64::MAX {
        match reader.read(&mut buffer[held..]) {
            Ok(0) => return bench.finish(&buffer[..held], writer),
            Ok(count) => {
                let end = held + count;
                held = bench.take(&buffer[..end], writer)?;
                buffer.copy_within(end - held..end, 0);
            }
            Err(_) => return Err(BenchError::ReadFailed),
        }
    }
    Err(BenchError::ReadFailed)
}
