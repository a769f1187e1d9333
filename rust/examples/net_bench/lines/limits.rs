// Written by tools/erase.py from crates/net_bench_lib/src/limits.rt: a change here would be lost.
//! The limits on lines, reads and storage, in bytes.

/// The most bytes of a line, without its line feed.
pub(crate) const MAX_LINE: usize = 4096;

/// How many bytes the beginning of a line and a read after it have together at most.
pub(crate) const ROOM: usize = 65536;

/// The most bytes of storage.
pub(crate) const MAX_CAPACITY: u64 = 65536;
