// Written by tools/erase.py from crates/net_bench_lib/src/ring.rt: a change here would be lost.
//! Mode `ring`: bytes go in, and come out in order.

use crate::lines::fault::{Fault, Refusal};
use crate::lines::numeral::number;
use crate::lines::session::Session;
use crate::lines::words::Words;
use crate::lines::{text, words};
use crate::rattle::net_ring::{ManagedSlice, RingBuffer};
use crate::rattle::prelude::*;
use crate::rattle::std::alloc::{AllocError, Allocator};

/// A line of the mode.
pub enum RingLine<A: Allocator + Copy> {
    /// `w HEX`: these bytes come in.
    Write(Vec<u8, A>),
    /// `r NUM`: at most NUM bytes go out.
    Read(u64),
}

/// A ring of bytes that lines fill and empty. A contract sees its queue and its capacity, and not
/// where in the storage it is read.
pub struct RingSession<'a> {
    ring: RingBuffer<'a, u8>,
}

/// Returns the meaning of a line, if it is one of the mode's.
fn ring_line<A: Allocator + Copy>(
    alloc: A,
    line: &[u8],
) -> Result<Option<RingLine<A>>, AllocError> {
    match words::split_words(line) {
        Words::Two(verb, word) => {
            if verb == b"w".as_slice() {
                return Ok(text::bytes(alloc, word)?.map(|bytes| RingLine::Write(bytes)));
            }
            if verb == b"r".as_slice() {
                return Ok(number(word).map(|number| RingLine::Read(number)));
            }
            Ok(None)
        }
        Words::One(_) | Words::Three(_, _, _) | Words::More => Ok(None),
    }
}

impl<'a> RingSession<'a> {
    /// Returns an empty ring over this storage.
    pub fn new(storage: &'a mut [u8]) -> RingSession<'a> {
        RingSession { ring: RingBuffer::new(ManagedSlice::from(storage)) }
    }

    /// Enqueues as many bytes as there is room for, and replies how many.
    fn write<A: Allocator + Copy>(
        &mut self,
        bytes: &[u8],
        reply: &mut String<A>,
    ) -> Result<(), AllocError> {
        let count = self.ring.enqueue_slice(bytes);
        write!(reply, "took {count}\n")
    }

    /// Dequeues at most `number` bytes, and replies with them.
    fn read<A: Allocator + Copy>(
        &mut self,
        alloc: A,
        number: u64,
        reply: &mut String<A>,
    ) -> Result<(), AllocError> {
        let count = (self.ring.len() as u64).min(number) as usize;
        let mut bytes = vec![in alloc; 0u8; count]?;
        let _ = self.ring.dequeue_slice(&mut bytes);
        text::show_bytes(alloc, &bytes, reply)
    }
}

impl<A: Allocator + Copy> Session<A> for RingSession<'_> {
    fn apply_line(&mut self, alloc: A, line: &[u8], reply: &mut String<A>) -> Result<(), Refusal> {
        match ring_line(alloc, line)? {
            Some(RingLine::Write(bytes)) => self.write(&bytes, reply)?,
            Some(RingLine::Read(number)) => self.read(alloc, number, reply)?,
            None => return Err(Refusal::Fault(Fault::BadCommand)),
        }
        Ok(())
    }

    fn closing_text(&self) -> &'static str {
        ""
    }
}
