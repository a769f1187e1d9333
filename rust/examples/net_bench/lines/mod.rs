//! Lines in, reply lines out, over a ring, an assembler or a receiver: the text of `crates/net_bench_lib`, without its
//! contracts.
mod asm;
mod bench;
mod dispatch;
mod error;
mod fault;
mod limits;
mod mode;
mod numeral;
mod program;
mod ring;
mod session;
mod stream;
mod text;
mod words;
mod writer;

pub use program::serve;

// For tests.
#[cfg(test)]
pub use {error::BenchError, mode::Mode, numeral::number};
