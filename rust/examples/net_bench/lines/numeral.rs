// Written by tools/erase.py from crates/net_bench_lib/src/numeral.rt: a change here would be lost.
//! Numbers in decimal digits.

/// Returns whether a word isn't empty, and its first byte is above the digit 0 unless it is the
/// only one.
fn begins_numeral(word: &[u8]) -> bool {
    !word.is_empty() && (word[0] > b'0' || word.len() == 1)
}

/// Returns the number that a word writes in decimal digits, if it is a numeral and the number fits
/// 64 bits.
pub fn number(word: &[u8]) -> Option<u64> {
    if !begins_numeral(word) {
        return None;
    }
    let mut value = 0u64;
    for &byte in word {
        if !byte.is_ascii_digit() {
            return None;
        }
        value = value.checked_mul(10)?.checked_add(u64::from(byte - b'0'))?;
    }
    Some(value)
}
