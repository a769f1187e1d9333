// Written by tools/erase.py from crates/net_receiver/src/receiver_head.rt: a change here would be lost.
//! A receiver in parts: a head of numbers, a storage, and runs that are kept elsewhere.

use crate::storage::RingHead;
use crate::storage::{AssemblerHead, Run, TooManyHolesError};
use crate::stream::held_runs::{is_listed, remember, HeldRun, HeldRunIter};
use crate::stream::kept::{KeptBytes, SegmentParts};

/// What a receiver has besides its storage and its held runs: numbers.
///
/// It serves callers who keep both elsewhere, as in the memory of a program in C. Each call takes
/// them as slices: as many bytes can be stored as the storage has, and as many runs can be held as
/// the slice of runs has elements.
///
/// A head, a storage and runs are *sound* if they are those of a receiver:
/// `HasSoundParts` in contracts, where `receiver_of` is what they store. Only the storage's length
/// matters, not its bytes. A call that requires this can't be made with a head and the runs of
/// another one, or a storage of another length. smoltcp has no such type.
#[repr(C)]
#[derive(Debug, Clone, Copy)]
pub struct ReceiverHead {
    /// The position of the stream's first byte.
    pub first: u64,
    /// How many bytes were read.
    pub count_read: u64,
    /// Where the queue is in the storage.
    pub place: RingHead,
    /// What the held runs are counted from, and how many there are.
    pub held: AssemblerHead,
}

impl ReceiverHead {
    /// Returns the head of a receiver of a stream that begins at position `first`; nothing is read,
    /// queued or held. It is sound with every storage and all runs.
    pub(crate) const fn new(first: u64) -> Self {
        ReceiverHead {
            first,
            count_read: 0,
            place: RingHead { read_at: 0, length: 0 },
            held: AssemblerHead::new(),
        }
    }

    /// Begins again: the head of a receiver of a stream that begins at position `first`, as `new`
    /// returns it.
    #[inline]
    pub(crate) fn reset_at(&mut self, first: u64) {
        *self = ReceiverHead::new(first);
    }

    /// Lets go of the held runs.
    #[inline]
    pub(crate) fn release_held(&mut self) {
        self.held = AssemblerHead::new();
    }

    /// Copies the bytes of a storage to a larger one, for which the head then is, with the same runs. A byte has
    /// another index there: the stream's byte number i is at i modulo the capacity.
    ///
    /// # Requires
    ///
    /// The queue is in the storage, and the other one is no smaller.
    pub(crate) fn grow(&mut self, storage: &[u8], larger: &mut [u8]) {
        let from = self.place.read_at;
        let to = RingHead { read_at: self.first_index(larger.len()), length: 0 };
        // The storage from its first queued byte on, and then the bytes before that.
        to.write_unallocated(larger, 0, &storage[from..]);
        to.write_unallocated(larger, storage.len() - from, &storage[..from]);
        self.place.read_at = to.read_at;
    }

    /// Returns the index of the first byte that wasn't read, in a storage of `capacity` bytes.
    fn first_index(&self, capacity: usize) -> usize {
        if capacity == 0 {
            return 0;
        }
        let index = self.count_read % capacity as u64;
        debug_assert!(index < capacity as u64);
        index as usize
    }

    /// Returns whether the offset of each held byte is above 0 and below `limit`.
    pub(crate) fn is_held_below(&self, limit: u64, runs: &[Run]) -> bool {
        let used = self.held.used;
        if used == 0 {
            return true;
        }
        if self.held.first_start == 0 {
            return false;
        }
        let last = &runs[used - 1];
        let end = self.held.first_start + last.end;
        end as u64 <= limit
    }

    /// Returns the first three held runs.
    #[inline(always)]
    pub(crate) fn first_runs(&self, runs: &[Run]) -> [Option<(u64, u64)>; 3] {
        let mut held = self.held(runs);
        [held.next(), held.next(), held.next()]
    }

    /// Keeps the bytes of a segment that are in the free window, as `ReceiverOver::keep` does. If it is
    /// refused, head, storage and runs stay as they were, with the runs that aren't in use.
    ///
    /// # Requires
    ///
    /// Head, storage and runs are sound, and the segment ends within 64 bits,
    /// as `ReceiverOver::fits` tests.
    #[inline(always)]
    pub(crate) fn keep(
        &mut self,
        storage: &mut [u8],
        runs: &mut [Run],
        pos: u64,
        bytes: &[u8],
    ) -> Result<KeptBytes, TooManyHolesError> {
        let place = self.place;
        let it = self.admit(runs, storage.len(), pos, bytes.len())?;
        if it.counts.kept == 0 {
            // Numbers written out: with `it.counts` this path is three times as slow.
            return Ok(KeptBytes { kept: 0, queued: 0 });
        }
        let rest = &bytes[it.skip..];
        let part = &rest[..it.counts.kept];
        place.write_unallocated(storage, it.offset, part);
        Ok(it.counts)
    }

    /// Takes the numbers of a segment of `len` bytes, as `keep` does, where the storage has `capacity` bytes. It writes
    /// no byte: what it returns says which bytes are kept, and where.
    #[inline(always)]
    pub(crate) fn admit(
        &mut self,
        runs: &mut [Run],
        capacity: usize,
        pos: u64,
        len: usize,
    ) -> Result<Admitted, TooManyHolesError> {
        let next = self.next();
        let window = self.window(capacity);
        let late = next.saturating_sub(pos);
        let ahead = pos.saturating_sub(next);
        if late >= len as u64 || ahead >= window as u64 {
            let counts = KeptBytes { kept: 0, queued: 0 };
            return Ok(Admitted { skip: 0, offset: 0, counts });
        }
        debug_assert!(late <= len as u64);
        let skip = late as usize;
        debug_assert!(ahead <= window as u64);
        let offset = ahead as usize;
        let kept = (len - skip).min(window - offset);
        let queued = self.held.add_then_remove_front(runs, offset, kept)?;
        self.place.enqueue(capacity, queued);
        Ok(Admitted { skip, offset, counts: KeptBytes { kept, queued } })
    }

    /// Moves bytes from the head of the queue to the beginning of `into`, and returns how many: as
    /// many as are queued and as `into` has room for. The rest of `into` stays as it is.
    ///
    /// # Requires
    ///
    /// The queue is in the storage, and the first missing position fits 64 bits, as they do where
    /// head, storage and runs are sound.
    #[inline]
    pub(crate) fn read(&mut self, storage: &[u8], into: &mut [u8]) -> usize {
        let count = self.place.dequeue_slice(storage, into);
        self.count_read += count as u64;
        count
    }

    /// Copies bytes from the head of the queue to the beginning of `into`, and returns how many: as
    /// many as are queued and as `into` has room for. The rest of `into` stays as it is, and the
    /// queue too.
    ///
    /// # Requires
    ///
    /// The queue is in the storage.
    #[inline]
    pub(crate) fn peek_slice(&self, storage: &[u8], into: &mut [u8]) -> usize {
        self.place.read_allocated(storage, 0, into)
    }

    /// Shows bytes of the queue that are contiguous, from its byte `offset` on: `size`, or as many
    /// as there are up to the end of the queue or of the storage.
    ///
    /// # Requires
    ///
    /// The queue is in the storage.
    #[inline]
    pub(crate) fn peek<'a>(&self, storage: &'a [u8], offset: usize, size: usize) -> &'a [u8] {
        let span = self.place.allocated(storage.len(), offset, size);
        &storage[span.from..span.from + span.contiguous]
    }

    /// Shows the queue, in order, in two parts: the bytes up to the storage's end, and those from
    /// its beginning on. The second part is empty unless the queue wraps.
    ///
    /// # Requires
    ///
    /// The queue is in the storage.
    #[inline]
    pub(crate) fn as_slices<'a>(&self, storage: &'a [u8]) -> (&'a [u8], &'a [u8]) {
        let span = self.place.allocated(storage.len(), 0, self.place.length);
        (&storage[span.from..span.from + span.contiguous], &storage[..span.count - span.contiguous])
    }

    /// Removes the first `count` bytes of the queue, as `read` does, and copies none. `capacity` is
    /// how many bytes the storage has.
    ///
    /// # Requires
    ///
    /// The queue is in the storage, it has `count` bytes, and the first missing position fits 64
    /// bits.
    #[inline]
    pub(crate) fn remove(&mut self, capacity: usize, count: usize) {
        self.place.dequeue(capacity, count);
        self.count_read += count as u64;
    }

    /// Returns the first missing position: the first position, plus the count of bytes read, plus
    /// those queued.
    ///
    /// # Requires
    ///
    /// The sum fits 64 bits, as it does where head, storage and runs are sound.
    #[inline(always)]
    pub(crate) fn next(&self) -> u64 {
        self.first + self.count_read + self.place.length as u64
    }

    /// Returns how many bytes are queued.
    #[inline(always)]
    pub(crate) fn queued(&self) -> usize {
        self.place.length
    }

    /// Returns the window, where the storage has `capacity` bytes: how many bytes have room after
    /// the queue, held ones among them.
    ///
    /// # Requires
    ///
    /// No more is queued than the capacity, as is so where head, storage and runs are sound.
    #[inline(always)]
    pub(crate) fn window(&self, capacity: usize) -> usize {
        capacity - self.place.length
    }

    /// Returns the end of the free window, where the storage has `capacity` bytes: the first
    /// position for which there is no room. `None` if it doesn't fit 64 bits.
    #[inline(always)]
    pub(crate) fn window_end(&self, capacity: usize) -> Option<u64> {
        let read = self.first.checked_add(self.count_read)?;
        read.checked_add(capacity as u64)
    }

    /// Returns the held runs, as `ReceiverOver::held` does: at most as many as `runs` has elements.
    ///
    /// # Requires
    ///
    /// Head and runs are sound, with a storage of some length.
    #[inline(always)]
    pub(crate) fn held<'a>(&self, runs: &'a [Run]) -> HeldRunIter<'a> {
        HeldRunIter::over(self.held.iter_data(runs), self.next())
    }

    /// Returns how many runs are held, without a look at them.
    #[inline(always)]
    pub(crate) fn held_count(&self) -> usize {
        self.held.used
    }

    /// Lists held runs at the beginning of `into`, the newest first, and returns how many: as many
    /// as are held, or as `into` has elements. The rest of `into` stays as it is.
    ///
    /// The first is the run that has `position`, that of the segment just taken, if it is held; then come the runs that
    /// have the positions in `recent`, in their order, and then the others, in rising order; each comes once. The call
    /// writes the starts of the runs that it lists to the beginning of `recent`, as many as there is room for. The
    /// caller sets `recent` to zeros before the first call, and doesn't change it afterwards. It is enough if `recent`
    /// and `into` have as many elements in each call as the longest acknowledgement has SACK blocks; a shorter one has
    /// the first of them. RFC 2018, section 4, wants this order. Each run that is listed is found by a search.
    ///
    /// # Requires
    ///
    /// Head and runs are sound, with a storage of some length.
    pub(crate) fn newest_runs(
        &self,
        runs: &[Run],
        position: u64,
        recent: &mut [u64],
        into: &mut [HeldRun],
    ) -> usize {
        let count = self.list_runs(runs, position, recent, into);
        remember(recent, &into[..count]);
        count
    }

    /// Lists the runs as `newest_runs` does, and leaves `recent` as it is.
    #[allow(clippy::needless_range_loop)] // its proof counts
    fn list_runs(
        &self,
        runs: &[Run],
        position: u64,
        recent: &[u64],
        into: &mut [HeldRun],
    ) -> usize {
        let mut count = self.list_run(runs, position, into, 0);
        for i in 0..recent.len() {
            count = self.list_run(runs, recent[i], into, count);
        }
        for (start, _) in self.held(runs) {
            if count == into.len() {
                return count;
            }
            count = self.list_run(runs, start, into, count);
        }
        count
    }

    /// Lists the run that has a position after the first `count`, unless one of them has it, and
    /// returns how many are listed then.
    fn list_run(&self, runs: &[Run], position: u64, into: &mut [HeldRun], count: usize) -> usize {
        if count == into.len() || is_listed(&into[..count], position) {
            return count;
        }
        match self.run_at(runs, position) {
            Some((start, end)) => {
                into[count] = HeldRun { start, end };
                debug_assert!(count < into.len());
                count + 1
            }
            None => count,
        }
    }

    /// Returns the held run that has a position, as (start, end), the end not included; `None` if
    /// the position isn't held.
    fn run_at(&self, runs: &[Run], position: u64) -> Option<(u64, u64)> {
        let next = self.next();
        if position < next {
            return None;
        }
        let offset = (position - next).min(usize::MAX as u64) as usize;
        let count = self.held.runs_by(runs, offset);
        if count == 0 {
            return None;
        }
        match self.held.run_at(runs, count - 1) {
            Some((start, end)) => {
                if offset < end {
                    Some((next + start as u64, next + end as u64))
                } else {
                    None
                }
            }
            None => None,
        }
    }

    /// Returns what of the positions from `pos` on and below `end` came before, as
    /// `ReceiverOver::duplicate_of` does.
    ///
    /// # Requires
    ///
    /// Head and runs are sound, with a storage of some length.
    pub(crate) fn duplicate_of(&self, runs: &[Run], pos: u64, end: u64) -> Option<(u64, u64)> {
        let next = self.next();
        let start = pos.max(self.first);
        let stop = end.min(next);
        if start < stop {
            return Some((start, stop));
        }
        self.held_part(runs, pos.max(next), end)
    }

    /// Returns the first of the positions from `from` on and below `end` that are held, up to the end of
    /// their run.
    fn held_part(&self, runs: &[Run], from: u64, end: u64) -> Option<(u64, u64)> {
        let next = self.next();
        let offset = (from - next).min(usize::MAX as u64) as usize;
        match self.first_held(runs, offset) {
            Some(start) => {
                let missing = self.held.first_missing(runs, start);
                let begin = next + start as u64;
                let stop = end.min(next + missing as u64);
                if begin < stop {
                    Some((begin, stop))
                } else {
                    None
                }
            }
            None => None,
        }
    }

    /// Returns the first offset of a held byte from `offset` on.
    fn first_held(&self, runs: &[Run], offset: usize) -> Option<usize> {
        let (missing, after) = self.held.next_hole(runs, offset);
        if missing > offset {
            return Some(offset);
        }
        after
    }

    /// Returns where the bytes of a segment are, where the storage has `capacity` bytes, as
    /// `ReceiverOver::parts_of` does.
    ///
    /// # Requires
    ///
    /// No more is queued than the capacity, and the first missing position fits 64 bits, as is so where head,
    /// storage and runs are sound.
    #[inline]
    pub(crate) fn parts_of(&self, capacity: usize, pos: u64, len: usize) -> SegmentParts {
        let next = self.next();
        let old = (len as u64).min(next.saturating_sub(pos)) as usize;
        let from = pos.max(next) - next;
        let room = (self.window(capacity) as u64).min(u64::MAX - next);
        let rest = len - old;
        let in_window = (rest as u64).min(room.saturating_sub(from)) as usize;
        SegmentParts { old, in_window, beyond: rest - in_window, past_end: 0 }
    }

    /// Counts those of a segment that ends within 64 bits.
    pub(crate) fn count_part(
        &self,
        capacity: usize,
        runs: &[Run],
        position: u64,
        len: usize,
    ) -> usize {
        // The part in the free window, counted from the first missing position.
        let next = self.next();
        let window = self.window(capacity);
        let from = position.saturating_sub(next).min(window as u64) as usize;
        let end = position + len as u64;
        let to = end.saturating_sub(next).min(window as u64) as usize;
        to.saturating_sub(from) - self.held.count_between(runs, from, to)
    }

    /// Returns whether the first missing position and the end of each held run are at most a position.
    ///
    /// # Requires
    ///
    /// Head and runs are sound, with a storage of some length.
    pub(crate) fn has_all_below(&self, runs: &[Run], pos: u64) -> bool {
        let next = self.next();
        next <= pos && self.is_held_below(pos - next, runs)
    }

    /// Compares two receivers, as `ReceiverOver::same_state` does.
    ///
    /// # Requires
    ///
    /// Both heads are sound with their storages and runs.
    pub(crate) fn is_same_state(
        &self,
        storage: &[u8],
        runs: &[Run],
        other: &ReceiverHead,
        other_storage: &[u8],
        other_runs: &[Run],
    ) -> bool {
        self.first == other.first
            && self.count_read == other.count_read
            && self.is_same_queue(storage, other, other_storage)
            && self.held.is_same(runs, &other.held, other_runs)
    }

    /// Returns whether two receivers have equal queues, compared slice by slice.
    fn is_same_queue(&self, storage: &[u8], other: &ReceiverHead, other_storage: &[u8]) -> bool {
        let length = self.place.length;
        if length != other.place.length {
            return false;
        }
        let mut at = 0;
        while at < length {
            let here = self.peek(storage, at, length - at);
            let there = other.peek(other_storage, at, here.len());
            let here = &here[..there.len()];
            if here != there {
                return false;
            }
            at += there.len();
            debug_assert!(at <= length);
        }
        true
    }
}

/// The part of a segment that is kept: how many bytes are before it, how far after the queue it goes, and the counts.
#[derive(Debug, Clone, Copy)]
pub(crate) struct Admitted {
    pub skip: usize,
    pub offset: usize,
    pub counts: KeptBytes,
}

/// Returns how many of `len` positions from `pos` on a stream can have.
#[inline]
pub(crate) fn count_existing(pos: u64, len: usize) -> usize {
    (len as u64).min(u64::MAX - pos) as usize
}
