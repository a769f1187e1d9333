// Written by tools/erase.py from crates/net_bench_lib/src/words.rt: a change here would be lost.
//! The words of a line.

// Why: Spaces and the ends of lines are found by `memchr`, a port of the kit that is proved, in place of loops of
// our own.

use crate::rattle::memchr::memchr;

/// The words of a line. Three is the most that any mode uses.
pub enum Words<'a> {
    /// One word.
    One(&'a [u8]),
    /// Two words.
    Two(&'a [u8], &'a [u8]),
    /// Three words.
    Three(&'a [u8], &'a [u8], &'a [u8]),
    /// More than three words.
    More,
}

/// Returns the first word of a line, and the rest after the space that ends it.
fn next_word(line: &[u8]) -> (&[u8], Option<&[u8]>) {
    match memchr(b' ', line) {
        Some(at) => (&line[..at], Some(&line[at + 1..])),
        None => (line, None),
    }
}

/// Returns the words of a line, separated by exactly one space.
pub fn split_words(line: &[u8]) -> Words<'_> {
    let (first, rest) = next_word(line);
    let Some(rest) = rest else {
        return Words::One(first);
    };
    let (second, rest) = next_word(rest);
    let Some(rest) = rest else {
        return Words::Two(first, second);
    };
    let (third, rest) = next_word(rest);
    match rest {
        None => Words::Three(first, second, third),
        Some(_) => Words::More,
    }
}
