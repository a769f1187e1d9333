//! Lines to the program `net_bench`, whole and one byte at a time: the replies and the status are the same.
#![no_main]
use std::io::{self, Read};

use net_base_fuzz::{fuzz, Draw};

#[macro_use]
#[path = "../../examples/net_bench/rattle.rs"]
mod rattle;
#[allow(clippy::write_with_newline)] // a line feed is in a text, as in what is read
#[path = "../../examples/net_bench/lines/mod.rs"]
mod lines;
#[path = "../../examples/net_bench/schedule.rs"]
mod schedule;

use rattle::{Global, String, Vec};

/// A reader that gives one byte a call.
struct Slow<'a>(&'a [u8]);

impl Read for Slow<'_> {
    fn read(&mut self, into: &mut [u8]) -> io::Result<usize> {
        let most = into.len().min(1);
        self.0.read(&mut into[..most])
    }
}

fn serve(words: &str, reader: &mut impl Read) -> (u8, std::vec::Vec<u8>, std::vec::Vec<u8>) {
    let mut all = Vec::new(Global);
    for word in words.split(' ') {
        let mut text = String::new(Global);
        text.push_str(word).expect("memory");
        all.extend([text]).expect("memory");
    }
    let (mut out, mut errors) = (std::vec::Vec::new(), std::vec::Vec::new());
    (lines::serve(Global, &all, reader, &mut out, &mut errors), out, errors)
}

fn play(mut draw: Draw) {
    let modes = ["ring 8", "ring 0", "asm 4", "asm 32", "stream 16 4", "stream 0 32", "ring"];
    let mode = modes[draw.below(7)];
    let said = serve(mode, &mut { draw.0 });
    assert_eq!(said, serve(mode, &mut Slow(draw.0)));
    assert!(said.0 != 0 || said.2.is_empty());
    // A reply has no more than a line of text, and ends.
    assert!(said.1.is_empty() || said.1.ends_with(b"\n"));
}

fuzz!(play);
