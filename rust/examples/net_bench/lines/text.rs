// Written by tools/erase.py from crates/net_bench_lib/src/text.rt: a change here would be lost.
//! Bytes as hexadecimal digits.

use crate::rattle::hex::FromHexError;
use crate::rattle::prelude::*;
use crate::rattle::std::alloc::{AllocError, Allocator};

/// How many bytes are compared with a word at a time.
const PART: usize = 64;

/// Returns the value of a hexadecimal digit in either case, and some number of any other byte.
fn digit(byte: u8) -> u8 {
    (byte & 15).wrapping_add((byte >> 6).wrapping_mul(9))
}

/// Writes the bytes that a word writes if it has a pair of digits for each, and else some bytes. No
/// branch depends on a digit.
fn guess(word: &[u8], bytes: &mut [u8]) {
    for (byte, pair) in bytes.iter_mut().zip(word.chunks_exact(2)) {
        *byte = digit(pair[0]).wrapping_mul(16).wrapping_add(digit(pair[1]));
    }
}

/// Returns whether a word is the text of these few bytes, in lower case.
fn is_part(bytes: &[u8], word: &[u8]) -> bool {
    let mut digits = [0u8; 2 * PART];
    let Some(text) = digits.get_mut(..word.len()) else {
        return false;
    };
    crate::rattle::hex::encode_to_slice(bytes, text).is_ok() && *text == *word
}

/// Returns whether a word is the text of these bytes, in lower case.
fn is_text(bytes: &[u8], word: &[u8]) -> bool {
    let mut bytes_left = bytes;
    let mut word_left = word;
    while bytes_left.len() > PART && word_left.len() > 2 * PART {
        let (part, after) = bytes_left.split_at(PART);
        let (text, rest) = word_left.split_at(2 * PART);
        if !is_part(part, text) {
            return false;
        }
        bytes_left = after;
        word_left = rest;
    }
    is_part(bytes_left, word_left)
}

/// Decodes as `hex::decode_to_slice` does. A guess that `hex` encodes to the word is right; it is
/// `hex` that decodes digits in upper case, and what is no digit, with an unpredictable branch for
/// each digit.
fn decode(word: &[u8], bytes: &mut [u8]) -> Result<(), FromHexError> {
    guess(word, bytes);
    if is_text(bytes, word) {
        return Ok(());
    }
    crate::rattle::hex::decode_to_slice(word, bytes)
}

/// Returns the bytes that a word writes, if it does: `-` for none, or one or more pairs of
/// hexadecimal digits in either case.
pub fn bytes<A: Allocator + Copy>(alloc: A, word: &[u8]) -> Result<Option<Vec<u8, A>>, AllocError> {
    if word == b"-".as_slice() {
        return Ok(Some(Vec::new(alloc)));
    }
    if word.is_empty() {
        return Ok(None);
    }
    let mut bytes = vec![in alloc; 0u8; word.len() / 2]?;
    match decode(word, &mut bytes) {
        Ok(()) => Ok(Some(bytes)),
        Err(_) => Ok(None),
    }
}

/// Makes the reply that shows these bytes.
pub fn show_bytes<A: Allocator + Copy>(
    alloc: A,
    bytes: &[u8],
    reply: &mut String<A>,
) -> Result<(), AllocError> {
    if bytes.is_empty() {
        return reply.push_str("read -\n");
    }
    let digits = crate::rattle::hex::encode(alloc, bytes)?;
    write!(reply, "read {digits}\n")
}
