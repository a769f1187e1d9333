// Written by tools/erase.py from crates/net_bench_lib/src/writer.rt: a change here would be lost.
//! Writing a text whole.

use crate::lines::error::BenchError;
use crate::rattle::std::io::Write;

/// Writes all of the text. A write that returns an error or takes no byte ends it: then a prefix of
/// the text was written.
///
/// std's `write_all` tries an interrupted write again, and doesn't say what was written before an
/// error; here nothing is tried again.
pub fn write_text<W: Write>(writer: &mut W, text: &[u8]) -> Result<(), BenchError> {
    let mut written = 0;
    while written < text.len() {
        match writer.write(&text[written..]) {
            Ok(0) | Err(_) => return Err(BenchError::WriteFailed),
            Ok(count) => written += count,
        }
    }
    Ok(())
}
