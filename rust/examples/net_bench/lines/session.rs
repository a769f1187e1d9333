// Written by tools/erase.py from crates/net_bench_lib/src/session.rt: a change here would be lost.
//! The trait of a mode: a state that lines change.

use crate::lines::fault::Refusal;
use crate::rattle::prelude::*;
use crate::rattle::std::alloc::Allocator;

/// The state of a mode, whose replies are in memory of `A`.
pub trait Session<A: Allocator + Copy> {
    /// Executes a line of at most 4,096 bytes, and makes its reply, in an empty text. After an error
    /// the session is over, and the text is no reply.
    fn apply_line(&mut self, alloc: A, line: &[u8], reply: &mut String<A>) -> Result<(), Refusal>;

    /// Returns the text after the last line.
    fn closing_text(&self) -> &'static str;
}
