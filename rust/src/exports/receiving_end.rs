// Written by tools/erase.py from crates/net_ffi/src/receiving_end.rt: a change here would be lost.
// Why: This end is over a `FiniteReceiverHead`, whose calls take the storage. A `ReceivingEndOver` that an export
// made of a lent storage would leave nothing known of that, since no contract says that it keeps the reference. So
// the calls of the receiver, and the list of blocks, are here once more, with the definitions of `net_ends` as
// contracts. The rules, which are of numbers, are those of its `ReceivingHead`.

use crate::exports::finite_receiver::has_number;
use crate::exports::receiver::{is_plausible, is_readable, KeptCounts, RUNS};
use crate::exports::refusals::{
    no_number, ArrivalStatus, SegmentStatus, NET_BASE_DONE, NET_BASE_IGNORE, NET_BASE_OTHER_END,
    NET_BASE_REFUSED, NET_BASE_TOO_MANY_RUNS,
};
use crate::exports::results::number_of;
use crate::exports::Run;
use crate::exports::Segment;
use crate::exports::{FiniteError, FiniteReceiverHead, HeldRun, KeptBytes};
use crate::exports::{ReceivingHead, Room};

#[repr(C)]
#[derive(Debug, Clone, Copy)]
pub struct ReceivingEnd {
    pub receiver: FiniteReceiverHead,
    pub runs: [Run; RUNS],
    pub head: ReceivingHead,
}

#[repr(C)]
#[derive(Debug, Clone, Copy)]
pub struct Acknowledgement {
    pub next: u64,
    pub blocks: [HeldRun; 4],
    pub block_count: usize,
    pub window: u16,
}

const NO_BLOCK: HeldRun = HeldRun { start: 0, end: 0 };

impl ReceivingEnd {
    fn new(first: u64, segment_size: u16) -> Self {
        ReceivingEnd {
            receiver: FiniteReceiverHead::new(first),
            runs: [Run { start: 0, end: 0 }; RUNS],
            head: ReceivingHead::new(first, segment_size),
        }
    }

    #[inline(always)]
    fn room(&self, capacity: usize) -> Room {
        let (next, end) = self.free(capacity);
        Room { next, end, capacity: capacity as u64, is_complete: self.receiver.is_complete() }
    }

    #[inline(always)]
    fn free(&self, capacity: usize) -> (u64, u64) {
        let next = self.receiver.acknowledged();
        match self.receiver.window_end(capacity) {
            Some(end) => (next, end),
            None => (next, u64::MAX),
        }
    }

    #[inline(always)]
    fn arrived(
        &mut self,
        storage: &mut [u8],
        pos: u64,
        bytes: &[u8],
        is_last: bool,
    ) -> Result<KeptBytes, FiniteError> {
        if bytes.is_empty() && !is_last {
            return Ok(KeptBytes { kept: 0, queued: 0 });
        }
        self.take(storage, pos, bytes, is_last)
    }

    fn take(
        &mut self,
        storage: &mut [u8],
        pos: u64,
        bytes: &[u8],
        is_last: bool,
    ) -> Result<KeptBytes, FiniteError> {
        let end = pos.saturating_add(bytes.len() as u64);
        let part = self.receiver.receiver.duplicate_of(&self.runs, pos, end);
        let held = self.receiver.receiver.held.used;
        let kept = self.receiver.keep(storage, &mut self.runs, pos, bytes, is_last);
        self.head.take(pos, is_last, part, held, kept);
        kept
    }

    fn list_runs(&mut self) -> ([HeldRun; 4], usize) {
        let mut runs = [NO_BLOCK; 4];
        let count = self.receiver.receiver.newest_runs(
            &self.runs,
            self.head.newest,
            &mut self.head.recent,
            &mut runs,
        );
        (runs, count)
    }

    #[inline(always)]
    fn acknowledgement(&mut self, capacity: usize) -> Acknowledgement {
        let room = self.room(capacity);
        let (next, window) = self.head.acknowledge(room);
        let duplicate = self.head.take_duplicate(room.next, room.is_complete);
        let (runs, count) = self.list_runs();
        let (blocks, block_count) = in_front(duplicate, runs, count);
        Acknowledgement { next, blocks, block_count, window }
    }
}

fn in_front(
    duplicate: Option<(u64, u64)>,
    runs: [HeldRun; 4],
    count: usize,
) -> ([HeldRun; 4], usize) {
    match duplicate {
        Some((start, end)) => {
            ([HeldRun { start, end }, runs[0], runs[1], runs[2]], count.saturating_add(1).min(4))
        }
        None => (runs, count),
    }
}

#[inline(always)]
pub fn net_base_receiving_end_init(end: &mut ReceivingEnd, first: u64, segment_size: u16) -> bool {
    if first == u64::MAX {
        return false;
    }
    *end = ReceivingEnd::new(first, segment_size);
    true
}

#[inline(always)]
pub fn net_base_receiving_end_is_sound(end: &ReceivingEnd, capacity: usize) -> bool {
    end.receiver.is_sound(capacity, &end.runs)
}

#[inline(always)]
pub fn net_base_receiving_end_open(
    end: &mut ReceivingEnd,
    capacity: usize,
    first: u64,
    scale: u8,
    window: &mut u16,
) -> bool {
    if first == u64::MAX {
        return false;
    }
    let segment_size = end.head.segment_size;
    *end = ReceivingEnd::new(first, segment_size);
    let room = end.room(capacity);
    *window = end.head.open(room, first, scale);
    true
}

#[inline(always)]
pub fn net_base_receiving_end_classify(
    end: &ReceivingEnd,
    capacity: usize,
    segment: &Segment,
) -> ArrivalStatus {
    if !has_number(&end.receiver) {
        return NET_BASE_IGNORE;
    }
    let next = end.receiver.acknowledged();
    let arrival = end.head.advertised.classify(next, capacity as u64, *segment);
    number_of(arrival)
}

#[inline(always)]
pub fn net_base_receiving_end_arrived(
    end: &mut ReceivingEnd,
    storage: &mut [u8],
    position: u64,
    bytes: &[u8],
    is_last: bool,
    counts: &mut KeptCounts,
) -> SegmentStatus {
    if !is_plausible(&end.receiver.receiver, storage.len(), RUNS) {
        return NET_BASE_REFUSED;
    }
    match end.arrived(storage, position, bytes, is_last) {
        Ok(it) => {
            *counts = KeptCounts { kept: it.kept, queued: it.queued };
            NET_BASE_DONE
        }
        Err(FiniteError::TooManyHoles) => NET_BASE_TOO_MANY_RUNS,
        Err(FiniteError::OtherEnd) => NET_BASE_OTHER_END,
    }
}

#[inline(always)]
pub fn net_base_receiving_end_answer(end: &mut ReceivingEnd) {
    end.head.answer();
}

#[inline(always)]
pub fn net_base_receiving_end_is_due(end: &ReceivingEnd) -> bool {
    end.head.is_due()
}

#[inline(always)]
pub fn net_base_receiving_end_is_wanted(end: &ReceivingEnd, capacity: usize) -> bool {
    is_plausible(&end.receiver.receiver, capacity, RUNS) && end.head.is_wanted(end.room(capacity))
}

#[inline(always)]
pub fn net_base_receiving_end_announce(
    end: &mut ReceivingEnd,
    capacity: usize,
    next: &mut u64,
    window: &mut u16,
) -> bool {
    if !is_plausible(&end.receiver.receiver, capacity, RUNS) {
        return false;
    }
    let room = end.room(capacity);
    (*next, *window) = end.head.announce(room);
    true
}

#[inline(always)]
pub fn net_base_receiving_end_acknowledgement(
    end: &mut ReceivingEnd,
    capacity: usize,
    acknowledgement: &mut Acknowledgement,
) -> bool {
    if !is_plausible(&end.receiver.receiver, capacity, RUNS) {
        return false;
    }
    *acknowledgement = end.acknowledgement(capacity);
    true
}

#[inline(always)]
pub fn net_base_receiving_end_read(
    end: &mut ReceivingEnd,
    storage: &[u8],
    into: &mut [u8],
) -> usize {
    if !is_readable(&end.receiver.receiver, storage.len()) {
        return no_number();
    }
    end.receiver.read(storage, into)
}
