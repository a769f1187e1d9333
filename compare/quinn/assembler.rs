//! quinn's `Assembler` over net-base's `StreamRanges`. `run.sh` puts it in the place of quinn's
//! `connection/assembler.rs`.

use std::{collections::VecDeque, mem, ops::Range};

use bytes::Bytes;
use net_base::{finite::StreamRangesOver, storage::Run};

/// How many ranges may wait for bytes before them. The first ones have room for `FIRST_RUNS`.
const MOST_RUNS: usize = 1024;
const FIRST_RUNS: usize = 8;
/// Chunks of fewer bytes are short. They are joined to blocks once so many of them came.
const SHORT: usize = 256;
const MANY_SHORT: usize = 1024;
const BLOCK: usize = 1024;

/// Puts what arrives in the order of the stream.
#[derive(Debug)]
pub(crate) struct Assembler {
    /// Which bytes came.
    ranges: StreamRangesOver<Vec<Run>>,
    /// The bytes up to the first that is missing, but for those that were read.
    ready: VecDeque<Chunk>,
    /// The bytes beyond it, in the order of their offsets.
    waiting: VecDeque<Chunk>,
    bytes_read: u64,
    /// After so many more short chunks they are joined.
    short_left: usize,
    is_unordered: bool,
}

impl Assembler {
    pub(crate) fn new() -> Self {
        Self::default()
    }

    /// Becomes that of another stream.
    pub(crate) fn reinit(&mut self) {
        *self = Self::default();
    }

    pub(crate) fn ensure_ordering(&mut self, ordered: bool) -> Result<(), IllegalOrderedRead> {
        self.is_unordered |= !ordered;
        if ordered && self.is_unordered {
            return Err(IllegalOrderedRead);
        }
        Ok(())
    }

    pub(crate) fn read(&mut self, max_length: usize, ordered: bool) -> Option<Chunk> {
        let is_ready = !self.ready.is_empty();
        let chunks = if is_ready || ordered { &mut self.ready } else { &mut self.waiting };
        let mut chunk = chunks.pop_front()?;
        if max_length < chunk.bytes.len() {
            let rest = chunk.bytes.split_off(max_length);
            chunks.push_front(Chunk::new(chunk.offset + max_length as u64, rest));
        }
        if is_ready {
            self.ranges.read(chunk.bytes.len());
        }
        self.bytes_read += chunk.bytes.len() as u64;
        Some(chunk)
    }

    /// Takes what is new of a frame.
    pub(crate) fn insert(&mut self, offset: u64, bytes: Bytes, datagram: usize) -> Result<(), TooManyRanges> {
        let frame = offset..offset + bytes.len() as u64;
        while let Some(part) = self.keep(frame.clone())? {
            if part == frame {
                self.put(offset, bytes, datagram);
                break;
            }
            let index = |pos| (pos - offset) as usize;
            self.put(part.start, bytes.slice(index(part.start)..index(part.end)), datagram);
        }
        Ok(())
    }

    pub(crate) fn bytes_read(&self) -> u64 {
        self.bytes_read
    }

    pub(crate) fn clear(&mut self) {
        self.ready = VecDeque::new();
        self.waiting = VecDeque::new();
    }

    /// Returns the first part of a range that is new, and notes that it came. Makes room for more ranges if need be.
    fn keep(&mut self, range: Range<u64>) -> Result<Option<Range<u64>>, TooManyRanges> {
        if let Ok(part) = self.ranges.keep(range.clone(), false) {
            return Ok(part);
        }
        let most = self.ranges.most_runs();
        if most == MOST_RUNS {
            return Err(TooManyRanges);
        }
        self.ranges.grow_runs(vec![Run::EMPTY; (2 * most).clamp(FIRST_RUNS, MOST_RUNS)]);
        Ok(self.ranges.keep(range, false).expect("room for a range"))
    }

    /// Puts bytes where they can be read, and what follows them, or else where they wait. It copies them if they are
    /// little of their datagram, so that this can be freed.
    fn put(&mut self, offset: u64, mut bytes: Bytes, datagram: usize) {
        if 3 * bytes.len() < datagram {
            bytes = Bytes::copy_from_slice(&bytes);
        }
        let is_short = bytes.len() < SHORT;
        let (chunk, next) = (Chunk::new(offset, bytes), self.ranges.next());
        if offset < next {
            self.ready.push_back(chunk);
            while self.waiting.front().map_or(false, |first| first.offset < next) {
                self.ready.extend(self.waiting.pop_front());
            }
        } else if self.waiting.back().map_or(true, |last| last.offset < offset) {
            self.waiting.push_back(chunk);
        } else {
            let index = self.waiting.partition_point(|other| other.offset < offset);
            self.waiting.insert(index, chunk);
        }
        self.short_left -= usize::from(is_short);
        if self.short_left == 0 {
            self.join_chunks();
        }
    }

    /// Joins chunks that touch, up to a block.
    fn join_chunks(&mut self) {
        let waiting = mem::take(&mut self.waiting);
        let mut joined: VecDeque<Chunk> = VecDeque::new();
        for chunk in mem::take(&mut self.ready).into_iter().chain(waiting) {
            match joined.back_mut() {
                Some(last) if last.end() == chunk.offset && last.bytes.len() + chunk.bytes.len() <= BLOCK => {
                    last.bytes = [&last.bytes[..], &chunk.bytes[..]].concat().into();
                }
                _ => joined.push_back(chunk),
            }
        }
        self.short_left = MANY_SHORT.max(joined.len());
        let next = self.ranges.next();
        self.waiting = joined.split_off(joined.partition_point(|chunk| chunk.offset < next));
        self.ready = joined;
    }
}

impl Default for Assembler {
    fn default() -> Self {
        let ranges = StreamRangesOver::over_at(vec![], 0, usize::MAX);
        let (ready, waiting) = (VecDeque::new(), VecDeque::new());
        Assembler { ranges, ready, waiting, bytes_read: 0, short_left: MANY_SHORT, is_unordered: false }
    }
}

/// What of a stream is read at once.
#[derive(Debug, PartialEq, Eq)]
pub struct Chunk {
    /// The first byte's position in the stream.
    pub offset: u64,
    /// The bytes.
    pub bytes: Bytes,
}

impl Chunk {
    fn new(offset: u64, bytes: Bytes) -> Self {
        Chunk { offset, bytes }
    }

    fn end(&self) -> u64 {
        self.offset + self.bytes.len() as u64
    }
}

/// A stream was read in order after it was read unordered.
#[derive(Debug)]
pub struct IllegalOrderedRead;

/// More ranges would wait than may.
#[derive(Debug)]
pub(crate) struct TooManyRanges;

/// What quinn's unit tests call, which `run.sh` appends.
#[cfg(test)]
impl Assembler {
    fn defragment(&mut self) {
        self.join_chunks();
    }

    /// Returns what can be read now.
    fn data(&self) -> &VecDeque<Chunk> {
        &self.ready
    }

    /// Reads all that can be read, as one chunk.
    fn read_joined(&mut self) -> Option<Chunk> {
        let mut chunk = self.read(usize::MAX, true)?;
        while let Some(more) = self.read(usize::MAX, true) {
            chunk.bytes = [chunk.bytes, more.bytes].concat().into();
        }
        Some(chunk)
    }
}
