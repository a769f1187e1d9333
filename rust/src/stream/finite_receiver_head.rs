// Written by tools/erase.py from crates/net_receiver/src/finite_receiver_head.rt: a change here would be lost.
//! A receiver of a stream that ends, in parts.

use crate::storage::Run;
use crate::stream::kept::{FiniteError, KeptBytes};
use crate::stream::receiver_head::ReceiverHead;

/// The end's position while that isn't known: no stream ends there.
pub(crate) const NO_END: u64 = u64::MAX;

/// What a receiver of a stream that ends has besides its storage and its held runs: numbers.
///
/// The end is the position after the stream's last byte. It has a number, as a byte has (a TCP
/// segment with FIN has one sequence number more than bytes), and needs no room. It is known once a
/// segment has said so, in whatever order the segments arrive; then no byte at or above it is kept.
///
/// Head, storage and runs are *sound* if they are those of such a receiver:
/// `HasSoundFinite` in contracts, where `finite_of` is what is stored. A head of zeros is new, of a stream
/// that begins at position 0. smoltcp has no such type.
#[repr(C)]
#[derive(Debug, Clone, Copy)]
pub struct FiniteReceiverHead {
    /// The receiver of the bytes.
    pub receiver: ReceiverHead,
    /// The position after the end's, or 0 while the end isn't known. It is acknowledged once all has arrived.
    pub after_end: u64,
}

// These are functions of a head's fields: of `after_end`, the number after the end's, and of the receiver. A
// `FiniteReceiverOver`, which has them apart, calls them too.

/// Returns the position after the last byte, or the greatest number of 64 bits while it isn't known: no byte
/// that is kept has that position.
#[inline(always)]
pub(crate) fn end_or_max(after_end: u64) -> u64 {
    after_end.wrapping_sub(1)
}

/// Returns the number after that of an end, or 0 for `NO_END`.
#[inline(always)]
pub(crate) fn number_after(end: u64) -> u64 {
    end.wrapping_add(1)
}

/// Returns whether an end is at most the end of the free window, which has `window` bytes from `next` on.
#[inline(always)]
pub(crate) fn is_reached(next: u64, window: usize, end: u64) -> bool {
    end.saturating_sub(next) <= window as u64
}

/// Returns the end, or while that isn't known the greatest number that an end can have.
#[inline(always)]
pub(crate) fn bytes_end(after_end: u64) -> u64 {
    end_or_max(after_end).min(NO_END - 1)
}

/// Returns how many of `len` bytes at `pos` are below the end, or while that isn't known below the
/// greatest number that an end can have.
#[inline(always)]
pub(crate) fn count_below(after_end: u64, pos: u64, len: usize) -> usize {
    let end = bytes_end(after_end);
    (len as u64).min(end.saturating_sub(pos)) as usize
}

/// Returns the number that an acknowledgement carries, where `next` is the first missing position.
#[inline(always)]
pub(crate) fn acknowledged(next: u64, after_end: u64) -> u64 {
    let end = end_or_max(after_end);
    if next == end {
        next + 1
    } else {
        next
    }
}

/// Returns the position after the last byte, once it is known.
#[inline(always)]
pub(crate) fn known_end(after_end: u64) -> Option<u64> {
    after_end.checked_sub(1)
}

/// Returns whether the stream can end at `pos`, as `FiniteReceiverHead::can_end` does.
fn can_end(receiver: &ReceiverHead, after_end: u64, runs: &[Run], pos: u64) -> bool {
    match known_end(after_end) {
        Some(end) => pos == end,
        None => pos < NO_END && receiver.has_all_below(runs, pos),
    }
}

/// Returns `after_end` after a segment that ends at `last`, where the storage has `capacity` bytes.
#[inline]
pub(crate) fn after_end_with(
    receiver: &ReceiverHead,
    after_end: u64,
    capacity: usize,
    last: u64,
    is_last: bool,
) -> u64 {
    if is_last && is_reached(receiver.next(), receiver.window(capacity), last) {
        number_after(last)
    } else {
        after_end
    }
}

/// Returns whether a last segment from `pos` to `last` ends the stream in order, while something is
/// missing.
#[inline]
fn ends_in_order(
    receiver: &ReceiverHead,
    after_end: u64,
    capacity: usize,
    pos: u64,
    last: u64,
) -> bool {
    let next = receiver.next();
    pos <= next
        && next <= last
        && is_reached(next, receiver.window(capacity), last)
        && last < NO_END
        && next != end_or_max(after_end)
}

/// Lets go of what is held, and of the end.
#[inline]
fn keep_queue_alone(receiver: &mut ReceiverHead, after_end: &mut u64) {
    receiver.release_held();
    *after_end = 0;
}

/// Keeps a segment by what the receiver has.
#[inline]
fn keep_usual(
    receiver: &mut ReceiverHead,
    after_end: &mut u64,
    storage: &mut [u8],
    runs: &mut [Run],
    pos: u64,
    bytes: &[u8],
    is_last: bool,
) -> Result<KeptBytes, FiniteError> {
    // A sum above 64 bits becomes `u64::MAX`, which `can_end` refuses.
    let last = pos.saturating_add(bytes.len() as u64);
    if is_last && !can_end(receiver, *after_end, runs, last) {
        return Err(FiniteError::OtherEnd);
    }
    let end_after = after_end_with(receiver, *after_end, storage.len(), last, is_last);
    let count = count_below(*after_end, pos, bytes.len());
    match receiver.keep(storage, runs, pos, &bytes[..count]) {
        Ok(kept) => {
            *after_end = end_after;
            Ok(kept)
        }
        Err(_) => Err(FiniteError::TooManyHoles),
    }
}

/// Keeps a segment, as `FiniteReceiverHead::keep` does, whose fields the first two are.
#[inline]
pub(crate) fn keep_ending(
    receiver: &mut ReceiverHead,
    after_end: &mut u64,
    storage: &mut [u8],
    runs: &mut [Run],
    pos: u64,
    bytes: &[u8],
    is_last: bool,
) -> Result<KeptBytes, FiniteError> {
    // A sum above 64 bits becomes `u64::MAX`, where no stream ends.
    let last = pos.saturating_add(bytes.len() as u64);
    if is_last && ends_in_order(receiver, *after_end, storage.len(), pos, last) {
        keep_queue_alone(receiver, after_end);
    }
    keep_usual(receiver, after_end, storage, runs, pos, bytes, is_last)
}

impl FiniteReceiverHead {
    /// Returns the head of a receiver of a stream that begins at position `first`; nothing has
    /// arrived. It is sound with every storage and all runs.
    ///
    /// # Requires
    ///
    /// `first` is below `u64::MAX`: an end there would have no number after it.
    pub(crate) const fn new(first: u64) -> Self {
        FiniteReceiverHead { receiver: ReceiverHead::new(first), after_end: 0 }
    }

    /// Returns whether the stream can end at `pos`: it is the end that is known, or none is, and it
    /// isn't below the first missing position or a held run's end. 2^64 - 1 is no end.
    ///
    /// # Requires
    ///
    /// Head and runs are sound, with a storage of some length.
    pub(crate) fn can_end(&self, runs: &[Run], pos: u64) -> bool {
        can_end(&self.receiver, self.after_end, runs, pos)
    }

    /// Copies the bytes of a storage to a larger one, for which the head then is, with the same runs.
    ///
    /// # Requires
    ///
    /// The queue is in the storage, and the other one is no smaller.
    pub(crate) fn grow(&mut self, storage: &[u8], larger: &mut [u8]) {
        self.receiver.grow(storage, larger);
    }

    /// Copies the held runs to the beginning of others, with which the head then is sound as it was with these.
    ///
    /// # Requires
    ///
    /// Head and runs are sound, with a storage of some length, and the others are no fewer.
    pub(crate) fn move_runs(&self, runs: &[Run], more: &mut [Run]) {
        let used = self.receiver.held.used;
        more[..used].copy_from_slice(&runs[..used]);
    }

    /// Keeps the bytes of a segment that are in the free window and below the end, and takes the end, as
    /// `FiniteReceiverOver::keep` does. If it is refused, head, storage and runs stay as they were.
    ///
    /// # Requires
    ///
    /// Head, storage and runs are sound.
    #[inline]
    pub(crate) fn keep(
        &mut self,
        storage: &mut [u8],
        runs: &mut [Run],
        pos: u64,
        bytes: &[u8],
        is_last: bool,
    ) -> Result<KeptBytes, FiniteError> {
        keep_ending(&mut self.receiver, &mut self.after_end, storage, runs, pos, bytes, is_last)
    }

    /// Returns whether all bytes and the end have arrived. Once it is so it stays so.
    ///
    /// # Requires
    ///
    /// The first missing position and the one after it fit 64 bits, as they do where head, storage
    /// and runs are sound.
    #[inline]
    pub(crate) fn is_complete(&self) -> bool {
        self.receiver.next() == end_or_max(self.after_end)
    }

    /// Returns whether all bytes were read, up to the end. Once it is so it stays so.
    ///
    /// # Requires
    ///
    /// The first missing position and the one after it fit 64 bits, as they do where head, storage
    /// and runs are sound.
    #[inline]
    pub(crate) fn has_read_all(&self) -> bool {
        self.receiver.first + self.receiver.count_read == end_or_max(self.after_end)
    }

    /// Moves bytes from the head of the queue to the beginning of `into`, and returns how many: as
    /// many as are queued and as `into` has room for. The rest of `into` stays as it is.
    ///
    /// # Requires
    ///
    /// The queue is in the storage, and the first missing position fits 64 bits, as they do where
    /// head, storage and runs are sound.
    #[inline]
    pub(crate) fn read(&mut self, storage: &[u8], into: &mut [u8]) -> usize {
        self.receiver.read(storage, into)
    }

    /// Removes the first `count` bytes of the queue, as `read` does, and copies none. `capacity` is
    /// how many bytes the storage has.
    ///
    /// # Requires
    ///
    /// The queue is in the storage, it has `count` bytes, and the first missing position fits 64
    /// bits, as they do where head, storage and runs are sound.
    #[inline]
    pub(crate) fn remove(&mut self, capacity: usize, count: usize) {
        self.receiver.remove(capacity, count);
    }
}
