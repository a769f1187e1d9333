// Written by tools/erase.py from crates/net_ffi/src/sending_end.rt: a change here would be lost.
// Why: The rules are those of `SendingHead`, over runs that are lent. An end of C lends the 16 in its struct, so that
// all of it but the bytes is one struct. Each flag and each number of the head has a meaning. So
// `is_sound`, which each call asks, looks at the sender and at what was reported, and at nothing else.

use crate::exports::receiver::RUNS;
use crate::exports::refusals::{
    no_number, AcknowledgedStatus, ExpiredStatus, OutgoingStatus, NET_BASE_ANSWER, NET_BASE_DONE,
    NET_BASE_LOST, NET_BASE_NOTHING, NET_BASE_OLD, NET_BASE_OVERDUE, NET_BASE_PROBE,
    NET_BASE_REFUSED,
};
use crate::exports::retransmission::{bounds_from, given_or, TimeoutBounds, FIRST_TIMEOUT};
use crate::exports::Run;
use crate::exports::{Acknowledged, Expired, Outgoing, Queued, SendingHead};
use crate::exports::{Announcement, Expiry, Sack};
use crate::exports::{FiniteSenderHead, HeldRun, SentNumbers};
use crate::time::{Duration, Instant};
use core::ops::Range;

const BLOCKS: usize = 4;

#[repr(C)]
#[derive(Copy, Clone, Debug)]
pub struct SendingEnd {
    pub sender: FiniteSenderHead,
    pub runs: [Run; RUNS],
    pub head: SendingHead,
    pub first_timeout: u64,
    pub bounds: TimeoutBounds,
}

#[repr(C)]
#[derive(Copy, Clone, Debug)]
pub struct TakenAcknowledgement {
    pub status: AcknowledgedStatus,
    pub count: u64,
    pub reports: bool,
    pub begins: bool,
}

#[repr(C)]
#[derive(Copy, Clone, Debug)]
pub struct EndedTimer {
    pub status: ExpiredStatus,
    pub begins: bool,
}

#[repr(C)]
#[derive(Copy, Clone, Debug)]
pub struct OutgoingSegment {
    pub status: OutgoingStatus,
    pub position: u64,
    pub end: u64,
    pub is_again: bool,
}

#[repr(C)]
#[derive(Copy, Clone, Debug)]
pub struct SegmentParts {
    pub from: usize,
    pub count: usize,
    pub rest_from: usize,
    pub rest_count: usize,
    pub is_last: bool,
}

#[inline(always)]
pub fn refused_taken_acknowledgement() -> TakenAcknowledgement {
    taken(NET_BASE_REFUSED)
}

#[inline(always)]
pub fn refused_ended_timer() -> EndedTimer {
    ended(NET_BASE_REFUSED, false)
}

#[inline(always)]
pub fn refused_outgoing_segment() -> OutgoingSegment {
    no_segment(NET_BASE_REFUSED)
}

#[inline(always)]
pub fn refused_segment_parts() -> SegmentParts {
    SegmentParts { from: no_number(), count: 0, rest_from: 0, rest_count: 0, is_last: false }
}

#[inline(always)]
fn taken(status: AcknowledgedStatus) -> TakenAcknowledgement {
    TakenAcknowledgement { status, count: 0, reports: false, begins: false }
}

#[inline(always)]
fn fields_of_acknowledged(said: Acknowledged) -> TakenAcknowledgement {
    match said {
        Acknowledged::Refused => taken(NET_BASE_ANSWER),
        Acknowledged::Old => taken(NET_BASE_OLD),
        Acknowledged::Taken { new, reports, begins } => {
            TakenAcknowledgement { status: NET_BASE_DONE, count: new, reports, begins }
        }
    }
}

#[inline(always)]
fn ended(status: ExpiredStatus, begins: bool) -> EndedTimer {
    EndedTimer { status, begins }
}

#[inline(always)]
fn fields_of_expired(said: Expired) -> EndedTimer {
    match said {
        Expired::No => ended(NET_BASE_DONE, false),
        Expired::Overdue { begins } => ended(NET_BASE_OVERDUE, begins),
        Expired::Probe => ended(NET_BASE_PROBE, false),
        Expired::Lost => ended(NET_BASE_LOST, false),
    }
}

#[inline(always)]
fn no_segment(status: OutgoingStatus) -> OutgoingSegment {
    OutgoingSegment { status, position: 0, end: 0, is_again: false }
}

#[inline(always)]
fn fields_of_outgoing(it: Outgoing) -> OutgoingSegment {
    OutgoingSegment { status: NET_BASE_DONE, position: it.pos, end: it.end, is_again: it.is_again }
}

#[inline(always)]
fn block_at(blocks: &[HeldRun], at: usize) -> Range<u64> {
    if at < blocks.len() {
        let block = blocks[at];
        block.start..block.end
    } else {
        0..0
    }
}

#[inline(always)]
fn ranges_of(blocks: &[HeldRun]) -> [Range<u64>; BLOCKS] {
    [block_at(blocks, 0), block_at(blocks, 1), block_at(blocks, 2), block_at(blocks, 3)]
}

#[inline(always)]
fn has_first(sender: &FiniteSenderHead) -> bool {
    sender.finished <= u64::MAX - sender.sender.first_unacknowledged
}

#[inline(always)]
fn numbers_from(sender: &FiniteSenderHead) -> SentNumbers {
    SentNumbers { first_unacknowledged: sender.first_number(), sent: sender.sent }
}

#[inline(always)]
fn sack_of(reports: bool) -> Sack {
    if reports {
        Sack::Permitted
    } else {
        Sack::Absent
    }
}

#[inline(always)]
fn moment(now: i64) -> Instant {
    Instant::from_micros(now)
}

#[inline(always)]
fn is_sound(end: &SendingEnd, capacity: usize) -> bool {
    end.sender.is_sound(capacity) && end.head.buffer.is_sound(&end.runs)
}

#[inline(always)]
fn queued_from(sender: &FiniteSenderHead, _capacity: usize) -> Queued {
    Queued {
        numbers: numbers_from(sender),
        end: sender.numbers_end(),
        is_closed: sender.is_closed(),
    }
}

#[inline(always)]
fn acknowledge(sender: &mut FiniteSenderHead, capacity: usize, ack: u64) {
    let _is_taken = sender.acknowledge(capacity, ack);
}

#[inline(always)]
fn mark(sender: &mut FiniteSenderHead, capacity: usize, to: u64) {
    let _is_written = sender.mark_sent(capacity, to);
}

#[inline(always)]
fn first_timeout(end: &SendingEnd) -> Duration {
    Duration::from_micros(given_or(end.first_timeout, FIRST_TIMEOUT))
}

fn new_end(first: u64, first_timeout: u64, bounds: &TimeoutBounds) -> SendingEnd {
    SendingEnd {
        sender: FiniteSenderHead::new(first),
        runs: [Run { start: 0, end: 0 }; RUNS],
        head: SendingHead::new_at(
            first,
            Duration::from_micros(given_or(first_timeout, FIRST_TIMEOUT)),
        ),
        first_timeout,
        bounds: *bounds,
    }
}

#[inline(always)]
pub fn net_base_sending_end_init(
    end: &mut SendingEnd,
    first: u64,
    first_timeout: u64,
    bounds: &TimeoutBounds,
) -> bool {
    if first == u64::MAX {
        return false;
    }
    *end = new_end(first, first_timeout, bounds);
    true
}

#[inline(always)]
pub fn net_base_sending_end_is_sound(end: &SendingEnd, capacity: usize) -> bool {
    is_sound(end, capacity)
}

#[inline(always)]
pub fn net_base_sending_end_open(
    end: &mut SendingEnd,
    capacity: usize,
    announcement: &Announcement,
    segment_size: usize,
    reports: bool,
    now: i64,
) -> bool {
    if !is_sound(end, capacity) {
        return false;
    }
    let (numbers, first) = (numbers_from(&end.sender), first_timeout(end));
    end.head.open(numbers, first, *announcement, segment_size, sack_of(reports), moment(now));
    true
}

#[inline(always)]
pub fn net_base_sending_end_is_opening_due(
    end: &mut SendingEnd,
    capacity: usize,
    now: i64,
) -> bool {
    if !is_sound(end, capacity) {
        return false;
    }
    end.head.is_opening_due(bounds_from(&end.bounds), moment(now))
}

#[inline(always)]
pub fn net_base_sending_end_set_nagle_enabled(end: &mut SendingEnd, enabled: bool) {
    end.head.set_nagle_enabled(enabled);
}

#[inline(always)]
pub fn net_base_sending_end_write(end: &mut SendingEnd, storage: &mut [u8], bytes: &[u8]) -> usize {
    if !end.sender.is_sound(storage.len()) {
        return no_number();
    }
    end.sender.write(storage, bytes)
}

#[inline(always)]
pub fn net_base_sending_end_close(end: &mut SendingEnd) {
    end.sender.close();
}

#[inline(always)]
pub fn net_base_sending_end_acknowledged(
    end: &mut SendingEnd,
    capacity: usize,
    announcement: &Announcement,
    blocks: &[HeldRun],
    is_empty: bool,
    now: i64,
) -> TakenAcknowledgement {
    if blocks.len() > BLOCKS || !is_sound(end, capacity) {
        return refused_taken_acknowledgement();
    }
    let ranges = ranges_of(blocks);
    let numbers = numbers_from(&end.sender);
    let said = end.head.acknowledged(
        &mut end.runs,
        numbers,
        bounds_from(&end.bounds),
        *announcement,
        &ranges[..blocks.len()],
        is_empty,
        moment(now),
    );
    acknowledge(&mut end.sender, capacity, announcement.ack);
    fields_of_acknowledged(said)
}

#[inline(always)]
pub fn net_base_sending_end_expired(end: &mut SendingEnd, capacity: usize, now: i64) -> EndedTimer {
    if !is_sound(end, capacity) {
        return refused_ended_timer();
    }
    match end.head.timer.expire(bounds_from(&end.bounds), moment(now)) {
        Some(Expiry::Probe) => {
            let queued = queued_from(&end.sender, capacity);
            fields_of_expired(end.head.take_silence(&end.runs, queued))
        }
        Some(Expiry::Timeout) => {
            let queued = queued_from(&end.sender, capacity);
            fields_of_expired(end.head.take_timeout(queued))
        }
        None => ended(NET_BASE_DONE, false),
    }
}

#[inline(always)]
pub fn net_base_sending_end_take_back(end: &mut SendingEnd, capacity: usize) -> bool {
    if !is_sound(end, capacity) {
        return false;
    }
    let numbers = numbers_from(&end.sender);
    end.head.buffer.take_back(&end.runs, numbers)
}

#[inline(always)]
pub fn net_base_sending_end_next_segment(
    end: &mut SendingEnd,
    capacity: usize,
    congestion_window: u64,
    now: i64,
) -> OutgoingSegment {
    if !is_sound(end, capacity) {
        return refused_outgoing_segment();
    }
    let queued = queued_from(&end.sender, capacity);
    let said = end.head.next_segment(
        &end.runs,
        queued,
        bounds_from(&end.bounds),
        congestion_window,
        moment(now),
    );
    match said {
        None => no_segment(NET_BASE_NOTHING),
        Some(it) => {
            mark(&mut end.sender, capacity, it.end);
            fields_of_outgoing(it)
        }
    }
}

#[inline(always)]
pub fn net_base_sending_end_bytes(
    end: &SendingEnd,
    capacity: usize,
    position: u64,
    limit: u64,
) -> SegmentParts {
    if !end.sender.is_sound(capacity) {
        return refused_segment_parts();
    }
    let (front, _ends) = end.sender.peek_at(capacity, position, limit);
    let after = position + front.contiguous as u64;
    let (back, is_last) = end.sender.peek_at(capacity, after, limit);
    SegmentParts {
        from: front.from,
        count: front.contiguous,
        rest_from: back.from,
        rest_count: back.contiguous,
        is_last,
    }
}

#[inline(always)]
pub fn net_base_sending_end_is_done(end: &SendingEnd) -> bool {
    end.sender.is_closed_and_acknowledged()
}

#[inline(always)]
pub fn net_base_sending_end_expires_at(end: &SendingEnd, moment: &mut i64) -> bool {
    match end.head.timer.expires_at() {
        Some(at) => {
            *moment = at.total_micros();
            true
        }
        None => false,
    }
}

#[inline(always)]
pub fn net_base_sending_end_empty_segment_position(end: &SendingEnd) -> u64 {
    if !has_first(&end.sender) {
        return u64::MAX;
    }
    end.head.peer_window.empty_segment_position(numbers_from(&end.sender))
}

#[inline(always)]
pub fn net_base_sending_end_is_recovering(end: &SendingEnd) -> bool {
    has_first(&end.sender) && end.head.buffer.recovery.is_active(numbers_from(&end.sender))
}
