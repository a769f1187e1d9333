// Written by tools/erase.py from crates/net_base/src/storage/fragments/head.rt: a change here would be lost.
//! The head of a buffer of fragments: what it has besides its bytes and runs, which each call takes as slices.

use super::FragmentError;
use crate::storage::{AssemblerHead, Run};

/// What a buffer of fragments has besides its bytes and runs.
///
/// It serves callers who keep these elsewhere, as a program in C. Each call takes them as slices:
/// the longest packet has as many bytes as the one, and at most as many maximal runs of bytes are
/// kept as the other has elements. A head of zeros, but for `expires_at`, is that of an empty
/// buffer. smoltcp has no such type: its buffer is one value.
///
/// A head is exact (`IsExact`) if no number says nothing: both of `present` are 0 where there is no run, and `total` is
/// 0 while the size isn't known. `new` and `reset` make it so, and each call leaves it so.
///
/// Head, bytes and runs are those of a buffer if the runs are those of an assembler and end within the bytes, and
/// within a known size, which is at most that of the bytes: `HasSoundParts` in contracts.
#[repr(C)]
#[derive(Debug, Clone, Copy)]
pub struct FragmentsHead {
    /// The positions that arrived: the head of an assembler.
    pub present: AssemblerHead,
    /// Whether the packet's size is known.
    pub has_total: bool,
    /// The packet's size in bytes, once it is known.
    pub total: usize,
    /// The last moment at which the packet is waited for, in microseconds.
    pub expires_at: i64,
}

impl FragmentsHead {
    /// Returns the head of an empty buffer, whose packet is waited for up to `expires_at`, in
    /// microseconds. It is sound for any memory.
    pub(crate) const fn new(expires_at: i64) -> Self {
        FragmentsHead { present: AssemblerHead::new(), has_total: false, total: 0, expires_at }
    }

    /// Begins again, for a packet that expires after `expires_at`.
    pub(crate) fn reset(&mut self, expires_at: i64) {
        *self = FragmentsHead::new(expires_at);
    }

    /// Returns where fragments must end: at a known size, or else at `capacity`.
    pub(crate) fn limit(&self, capacity: usize) -> usize {
        if self.has_total {
            self.total
        } else {
            capacity
        }
    }

    /// Returns whether all bytes that arrived are below `limit`.
    pub(crate) fn is_below(&self, runs: &[Run], limit: usize) -> bool {
        let last = self.present.run_count().saturating_sub(1);
        match self.present.run_at(runs, last) {
            Some((_, end)) => end <= limit,
            None => true,
        }
    }

    /// Adds a fragment, whose first byte is that of the packet at `offset`. One without bytes has
    /// its end at `offset`, and adds nothing.
    ///
    /// Returns `TooLong`, and changes nothing, if the fragment reaches past the buffer's end, or
    /// else `OtherSize` if it reaches past a known size, or else `TooManyHoles` if there would be
    /// more runs than the slice has elements.
    ///
    /// # Requires
    ///
    /// Head, bytes and runs are those of a buffer.
    pub(crate) fn add(
        &mut self,
        bytes: &mut [u8],
        runs: &mut [Run],
        offset: usize,
        data: &[u8],
    ) -> Result<(), FragmentError> {
        let capacity = bytes.len();
        if ends_above(capacity, offset, data.len()) {
            return Err(FragmentError::TooLong);
        }
        if ends_above(self.limit(capacity), offset, data.len()) {
            return Err(FragmentError::OtherSize);
        }
        let Ok(()) = self.present.add(runs, offset, data.len()) else {
            return Err(FragmentError::TooManyHoles);
        };
        bytes[offset..offset + data.len()].copy_from_slice(data);
        Ok(())
    }

    /// Adds a fragment, as `add` does, and takes its end as the packet's if it is the last one. If it is
    /// refused, nothing changes.
    ///
    /// # Requires
    ///
    /// Head, bytes and runs are those of a buffer.
    pub(crate) fn add_fragment(
        &mut self,
        bytes: &mut [u8],
        runs: &mut [Run],
        offset: usize,
        data: &[u8],
        is_last: bool,
    ) -> Result<(), FragmentError> {
        if !is_last {
            return self.add(bytes, runs, offset, data);
        }
        let capacity = bytes.len();
        if ends_above(capacity, offset, data.len()) {
            return Err(FragmentError::TooLong);
        }
        debug_assert!(offset + data.len() <= capacity);
        let mut head = *self;
        head.set_total_size(capacity, runs, offset + data.len())?;
        head.add(bytes, runs, offset, data)?;
        *self = head;
        Ok(())
    }

    /// Begins again, for a packet that expires after `expires_at`, with this fragment of it. If it is
    /// refused, nothing changes.
    ///
    /// # Errors
    ///
    /// It is refused as `add_fragment` refuses it in an empty buffer.
    ///
    /// # Requires
    ///
    /// Head, bytes and runs are those of a buffer.
    pub(crate) fn reset_with(
        &mut self,
        bytes: &mut [u8],
        runs: &mut [Run],
        offset: usize,
        data: &[u8],
        is_last: bool,
        expires_at: i64,
    ) -> Result<(), FragmentError> {
        let mut head = FragmentsHead::new(expires_at);
        head.add_fragment(bytes, runs, offset, data, is_last)?;
        *self = head;
        Ok(())
    }

    /// Sets the packet's size to `size` bytes, of a buffer of `capacity` bytes.
    ///
    /// Returns `TooLong`, and changes nothing, if the buffer has fewer bytes, or else `OtherSize`
    /// if another size is known, or a byte at `size` or above has arrived.
    ///
    /// # Requires
    ///
    /// The runs are sound.
    pub(crate) fn set_total_size(
        &mut self,
        capacity: usize,
        runs: &[Run],
        size: usize,
    ) -> Result<(), FragmentError> {
        if size > capacity {
            return Err(FragmentError::TooLong);
        }
        let can_be = if self.has_total { self.total == size } else { self.is_below(runs, size) };
        if !can_be {
            return Err(FragmentError::OtherSize);
        }
        self.has_total = true;
        self.total = size;
        Ok(())
    }

    /// Returns the packet's size, once it is known.
    pub(crate) fn total_size(&self) -> Option<usize> {
        self.has_total.then_some(self.total)
    }

    /// Returns whether one of the `len` positions from `offset` on has arrived: whether a fragment there
    /// overlaps bytes that are present. They need not be within the buffer.
    ///
    /// It is asked before `add`, by callers who refuse a packet whose fragments overlap (RFC 5722). A
    /// fragment that arrives twice overlaps too.
    ///
    /// # Requires
    ///
    /// The runs are sound.
    pub(crate) fn overlaps(&self, runs: &[Run], offset: usize, len: usize) -> bool {
        let (missing, end) = self.present.next_hole(runs, offset);
        if offset < missing {
            return len > 0;
        }
        match end {
            Some(end) => end - offset < len,
            None => false,
        }
    }

    /// Returns whether a byte that arrived differs from that of the fragment whose first byte is that of the packet at
    /// `offset`. The fragment need not be within the buffer.
    ///
    /// # Requires
    ///
    /// Head, bytes and runs are those of a buffer.
    pub(crate) fn differs(&self, bytes: &[u8], runs: &[Run], offset: usize, data: &[u8]) -> bool {
        // The runs before the last one that starts by `offset` end by then.
        let first = self.present.runs_by(runs, offset).saturating_sub(1);
        for k in first..self.present.run_count() {
            let Some((start, end)) = self.present.run_at(runs, k) else {
                return false;
            };
            if start.saturating_sub(offset) >= data.len() {
                return false;
            }
            if run_differs(bytes, start, end, offset, data) {
                return true;
            }
        }
        false
    }

    /// Returns the packet's size, if it is known and all its bytes have arrived: they are the first
    /// ones of the buffer.
    ///
    /// # Requires
    ///
    /// The runs are sound.
    pub(crate) fn complete(&self, runs: &[Run]) -> Option<usize> {
        if !self.has_total || self.present.peek_front(runs) < self.total {
            return None;
        }
        Some(self.total)
    }

    /// Returns whether `now` is after the last moment at which the packet is waited for.
    pub(crate) fn is_expired(&self, now: i64) -> bool {
        self.expires_at < now
    }
}

/// Returns whether a fragment of `len` bytes at `offset` reaches past `limit`.
fn ends_above(limit: usize, offset: usize, len: usize) -> bool {
    offset > limit || len > limit - offset
}

/// Returns whether the fragment at `offset` has another byte than one of a run from `start` to `end`, which is within
/// the bytes.
fn run_differs(bytes: &[u8], start: usize, end: usize, offset: usize, data: &[u8]) -> bool {
    let first = start.saturating_sub(offset);
    let last = end.saturating_sub(offset).min(data.len());
    first < last && bytes[start.max(offset)..offset + last] != data[first..last]
}
