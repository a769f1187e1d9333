// Written by tools/erase.py from crates/net_receiver/src/schedule.rt: a change here would be lost.
//! Schedules: commands to a receiver, one after another, and its replies.

use crate::rattle::net_assembler::TooManyHolesError;
use crate::rattle::net_receiver::kept::Kept;
use crate::rattle::net_receiver::receiver::Receiver;
use crate::rattle::prelude::*;
use crate::rattle::std::alloc::{AllocError, Allocator, Global};

/// A command to a receiver. A segment's bytes are in memory of `A`.
pub enum Command<A: Allocator + Copy = Global> {
    /// These bytes arrive, the first of them at position `pos`.
    Segment { pos: u64, bytes: Vec<u8, A> },
    /// At most this many bytes are read.
    Read(u64),
    /// The receiver's numbers and its held runs are shown.
    Show,
}

/// The reply to a command. Its lists are in memory of `A`.
pub enum Reply<A: Allocator + Copy = Global> {
    /// The result of a segment, or its refusal.
    Segment(Result<Kept, TooManyHolesError>),
    /// The bytes that were read.
    Read(Vec<u8, A>),
    /// The first missing position, how many bytes are queued, how many have room after them, and
    /// the held runs as (start, end) in rising order, the end not included.
    Show { next: u64, queued: usize, window: usize, held: Vec<(u64, u64), A> },
}

/// Executes one command, and returns its reply.
///
/// All memory that its reply needs is taken before the command is executed. If it is refused, the
/// receiver stays as it was. A segment needs no memory, so it can't fail (`segment`). `state` and
/// `reply` are the rules on what is stored. Laws `receives` and `reads` say what they mean for the bytes of one
/// stream.
///
/// # Requires
///
/// A segment ends within 64 bits, as `Receiver::fits` tests.
pub fn execute<A: Allocator + Copy, const N: usize>(
    alloc: A,
    receiver: &mut Receiver<'_, N>,
    command: &Command<A>,
) -> Result<Reply<A>, AllocError> {
    match command {
        Command::Segment { pos, bytes } => Ok(Reply::Segment(receiver.segment(*pos, bytes))),
        Command::Read(count) => {
            let queued = receiver.queued();
            let taken = (*count).min(queued as u64) as usize;
            let mut bytes = vec![in alloc; 0; taken]?;
            receiver.read(&mut bytes);
            Ok(Reply::Read(bytes))
        }
        Command::Show => {
            let held = shown_runs(alloc, receiver)?;
            Ok(Reply::Show {
                next: receiver.next(),
                queued: receiver.queued(),
                window: receiver.window(),
                held,
            })
        }
    }
}

/// Returns the held runs as a list, for which memory is asked for once.
fn shown_runs<A: Allocator + Copy, const N: usize>(
    alloc: A,
    receiver: &Receiver<'_, N>,
) -> Result<Vec<(u64, u64), A>, AllocError> {
    let mut found = Vec::with_capacity(alloc, receiver.held().count())?;
    found.extend(receiver.held())?;
    Ok(found)
}
