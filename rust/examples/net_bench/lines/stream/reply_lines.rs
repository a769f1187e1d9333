// Written by tools/erase.py from crates/net_bench_lib/src/stream/reply_lines.rt: a change here would be lost.
//! The replies of a receiver as text.

use crate::lines::text;
use crate::rattle::net_receiver::{Kept, Reply};
use crate::rattle::prelude::*;
use crate::rattle::std::alloc::{AllocError, Allocator};
use crate::rattle::std::fmt;

/// Runs after another, a comma before each.
struct NextRuns<'a>(&'a [(u64, u64)]);

impl fmt::Display for NextRuns<'_> {
    fn fmt(&self, f: &mut fmt::Formatter<'_>) -> fmt::Result {
        for (start, end) in self.0 {
            write!(f, ",{start}-{end}")?;
        }
        Ok(())
    }
}

/// Runs, joined by commas: a dash for none.
struct Runs<'a>(&'a [(u64, u64)]);

impl fmt::Display for Runs<'_> {
    fn fmt(&self, f: &mut fmt::Formatter<'_>) -> fmt::Result {
        match self.0.split_first() {
            None => write!(f, "-"),
            Some((first, rest)) => {
                let (start, end) = *first;
                let rest = NextRuns(rest);
                write!(f, "{start}-{end}{rest}")
            }
        }
    }
}

/// Shows what was kept of a segment and the first held runs, as a line.
fn show_accepted<A: Allocator + Copy>(
    kept: usize,
    queued: usize,
    sack: &[(u64, u64)],
    reply: &mut String<A>,
) -> Result<(), AllocError> {
    let sack = Runs(sack);
    write!(reply, "kept {kept} queued {queued} sack {sack}\n")
}

/// Shows what was kept of a segment, as a line.
fn show_kept<A: Allocator + Copy>(kept: &Kept, reply: &mut String<A>) -> Result<(), AllocError> {
    let [first, second, third] = kept.sack;
    let Some(first) = first else {
        return show_accepted(kept.kept, kept.queued, &[], reply);
    };
    let Some(second) = second else {
        return show_accepted(kept.kept, kept.queued, &[first], reply);
    };
    let Some(third) = third else {
        return show_accepted(kept.kept, kept.queued, &[first, second], reply);
    };
    show_accepted(kept.kept, kept.queued, &[first, second, third], reply)
}

/// Shows a receiver's numbers and held runs, as a line.
fn show_receiver<A: Allocator + Copy>(
    next: u64,
    queued: usize,
    window: usize,
    held: &[(u64, u64)],
    reply: &mut String<A>,
) -> Result<(), AllocError> {
    let held = Runs(held);
    write!(reply, "next {next} queued {queued} window {window} held {held}\n")
}

/// Shows the answer to a command, as a line.
pub fn show_reply<A: Allocator + Copy>(
    alloc: A,
    answer: &Reply<A>,
    reply: &mut String<A>,
) -> Result<(), AllocError> {
    match answer {
        Reply::Segment(Ok(kept)) => show_kept(kept, reply),
        Reply::Segment(Err(_)) => reply.push_str("refused too many holes\n"),
        Reply::Read(bytes) => text::show_bytes(alloc, bytes, reply),
        Reply::Show { next, queued, window, held } => {
            show_receiver(*next, *queued, *window, held, reply)
        }
    }
}
