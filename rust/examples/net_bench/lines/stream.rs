// Written by tools/erase.py from crates/net_bench_lib/src/stream.rt: a change here would be lost.
//! Mode `stream`: segments of a stream arrive in any order, and its bytes are read in order.

use crate::lines::fault::{Fault, Refusal};
use crate::lines::numeral::number;
use crate::lines::session::Session;
use crate::lines::words::Words;
use crate::lines::{text, words};
use crate::rattle::net_receiver::{execute, Command, Receiver};
use crate::rattle::net_ring::ManagedSlice;
use crate::rattle::prelude::*;
use crate::rattle::std::alloc::{AllocError, Allocator};
use crate::rattle::std::mem;

mod reply_lines;

/// A line of the mode.
pub enum StreamLine<A: Allocator + Copy> {
    /// `s NUM HEX`, `r NUM` or `?`: a command to the receiver.
    ToReceiver(Command<A>),
    /// `--`: the second schedule begins.
    NextSchedule,
}

/// A receiver that lines send segments to and read from, and after `--` also the one before it.
///
/// The storage of the second schedule is made when it begins, in the list that `second` lends.
pub struct StreamSession<'a, A: Allocator + Copy, const N: usize> {
    first: u64,
    capacity: usize,
    present: Receiver<'a, N>,
    ended: Option<Receiver<'a, N>>,
    second: Option<&'a mut Vec<u8, A>>,
}

/// Returns the segment that two words name, if they name one.
fn segment<A: Allocator + Copy>(
    alloc: A,
    position: &[u8],
    bytes: &[u8],
) -> Result<Option<StreamLine<A>>, AllocError> {
    let Some(pos) = number(position) else {
        return Ok(None);
    };
    let Some(bytes) = text::bytes(alloc, bytes)? else {
        return Ok(None);
    };
    Ok(Some(StreamLine::ToReceiver(Command::Segment { pos, bytes })))
}

/// Returns the meaning of a line, if it is one of the mode's.
fn stream_line<A: Allocator + Copy>(
    alloc: A,
    line: &[u8],
) -> Result<Option<StreamLine<A>>, AllocError> {
    match words::split_words(line) {
        Words::One(verb) => {
            if verb == b"?".as_slice() {
                return Ok(Some(StreamLine::ToReceiver(Command::Show)));
            }
            if verb == b"--".as_slice() {
                return Ok(Some(StreamLine::NextSchedule));
            }
            Ok(None)
        }
        Words::Two(verb, count) => {
            if verb == b"r".as_slice() {
                return Ok(number(count).map(|count| StreamLine::ToReceiver(Command::Read(count))));
            }
            Ok(None)
        }
        Words::Three(verb, position, bytes) => {
            if verb == b"s".as_slice() {
                return segment(alloc, position, bytes);
            }
            Ok(None)
        }
        Words::More => Ok(None),
    }
}

/// Returns whether a segment's end is at most the greatest number.
fn fits<A: Allocator + Copy, const N: usize>(command: &Command<A>) -> bool {
    match command {
        Command::Segment { pos, bytes } => Receiver::<N>::fits(*pos, bytes.len()),
        Command::Read(_) | Command::Show => true,
    }
}

impl<'a, A: Allocator + Copy, const N: usize> StreamSession<'a, A, N> {
    /// Returns a session with a fresh receiver of a stream that begins at `first`, over this
    /// storage. The storage of the second schedule takes the place of the present value of
    /// `second`.
    pub fn new(
        first: u64,
        storage: &'a mut [u8],
        second: &'a mut Vec<u8, A>,
    ) -> StreamSession<'a, A, N> {
        StreamSession {
            first,
            capacity: storage.len(),
            present: Receiver::new_at(ManagedSlice::from(storage), first),
            ended: None,
            second: Some(second),
        }
    }

    /// Does a command, and shows its reply.
    fn command(
        &mut self,
        alloc: A,
        command: &Command<A>,
        reply: &mut String<A>,
    ) -> Result<(), Refusal> {
        if !fits::<A, N>(command) {
            return Err(Refusal::Fault(Fault::RangeTooLong));
        }
        let answer = execute(alloc, &mut self.present, command)?;
        reply_lines::show_reply(alloc, &answer, reply)?;
        Ok(())
    }

    /// Begins the second schedule, which has no reply.
    fn next_schedule(&mut self, alloc: A) -> Result<(), Refusal> {
        if self.ended.is_some() {
            return Err(Refusal::Fault(Fault::TooManySchedules));
        }
        let storage = vec![in alloc; 0u8; self.capacity]?;
        let second = self.second.take().unwrap();
        *second = storage;
        let fresh = Receiver::new_at(ManagedSlice::from(second.as_mut_slice()), self.first);
        self.ended = Some(mem::replace(&mut self.present, fresh));
        Ok(())
    }
}

impl<A: Allocator + Copy, const N: usize> Session<A> for StreamSession<'_, A, N> {
    fn apply_line(&mut self, alloc: A, line: &[u8], reply: &mut String<A>) -> Result<(), Refusal> {
        match stream_line(alloc, line)? {
            Some(StreamLine::ToReceiver(command)) => self.command(alloc, &command, reply),
            Some(StreamLine::NextSchedule) => self.next_schedule(alloc),
            None => Err(Refusal::Fault(Fault::BadCommand)),
        }
    }

    fn closing_text(&self) -> &'static str {
        match &self.ended {
            None => "",
            Some(ended) if ended.same_state(&self.present) => "same\n",
            Some(_) => "differs\n",
        }
    }
}
