//! quinn's `SendBuffer` over net-base's `SendRanges`. `run.sh` puts it in the place of quinn's
//! `connection/send_buffer.rs`.

use std::{collections::VecDeque, ops::Range};

use bytes::Bytes;
use net_base::{finite::SendRangesOver, storage::Run};

use crate::VarInt;

/// How many ranges are remembered beyond the first that isn't acknowledged: at most one for each packet in flight.
/// The first ones have room for `FIRST_RUNS`.
const MOST_RUNS: usize = usize::MAX;
const FIRST_RUNS: usize = 8;

/// What a stream sends.
#[derive(Debug)]
pub struct SendBuffer {
    /// Which bytes are acknowledged, in flight or lost.
    ranges: SendRangesOver<Vec<Run>>,
    /// What was written and isn't all acknowledged, each with the position after it.
    segments: VecDeque<(u64, Bytes)>,
    /// How many bytes aren't acknowledged.
    unacked: u64,
    /// How often something was lost since all that was lost is sent again: there are no more holes in what is in flight.
    losses: usize,
}

impl SendBuffer {
    pub fn new() -> Self {
        Self::default()
    }

    pub fn write(&mut self, data: Bytes) {
        let count = data.len() as u64;
        let written = self.ranges.write(count);
        debug_assert_eq!(written, count);
        self.unacked += count;
        self.segments.push_back((self.offset(), data));
    }

    /// Takes an acknowledgement, and returns how many bytes weren't acknowledged before.
    pub fn ack(&mut self, range: Range<u64>) -> u64 {
        if range.start > self.ranges.numbers().first_unacknowledged {
            self.allow_hole();
        }
        let mut said = self.ranges.acknowledge(range.clone()).expect("only what was sent is acknowledged");
        if said.sent_again && self.make_room() {
            said = self.ranges.acknowledge(range).expect("it was sent");
        }
        self.unacked -= said.new;
        if said.freed > 0 {
            let first = self.ranges.numbers().first_unacknowledged;
            while self.segments.front().map_or(false, |(end, _)| *end <= first) {
                self.segments.pop_front();
            }
            if self.segments.len() * 4 < self.segments.capacity() {
                self.segments.shrink_to_fit();
            }
        }
        said.new
    }

    /// Returns what to send next in a frame, and whether the frame says its length: it does unless it fills `max_len`
    /// bytes, its offset and its length among them. A frame at the stream's beginning has no offset.
    pub fn poll_transmit(&mut self, mut max_len: usize) -> (Range<u64>, bool) {
        debug_assert!(max_len >= 8 + 8);
        let all_sent = self.offset()..self.offset();
        let open = self.ranges.next(u64::MAX, usize::MAX).unwrap_or(all_sent);
        if open.start >= self.ranges.numbers().sent {
            self.losses = 0;
        }
        if open.start != 0 {
            max_len -= VarInt::from_u64(open.start).expect("below 2^62").size();
        }
        let has_length = open.end - open.start < max_len as u64;
        if has_length {
            max_len -= 8;
        }
        let range = open.start..open.end.min(open.start + max_len as u64);
        // A frame that has the FIN alone has no bytes, and so nothing to mark.
        let is_marked = range.is_empty() || self.ranges.mark(range.clone());
        debug_assert!(is_marked);
        (range, has_length)
    }

    /// Lends the first bytes of a range, up to the end of what was written at once. Another call lends the rest.
    pub fn get(&self, offsets: Range<u64>) -> &[u8] {
        let index = self.segments.partition_point(|(end, _)| *end <= offsets.start);
        let Some((end, bytes)) = self.segments.get(index) else { return &[] };
        let start = *end - bytes.len() as u64;
        &bytes[(offsets.start - start) as usize..(offsets.end.min(*end) - start) as usize]
    }

    pub fn retransmit(&mut self, range: Range<u64>) {
        self.allow_hole();
        self.losses += 1;
        let is_sent = self.ranges.lose(range);
        debug_assert!(is_sent, "only what was sent is lost");
    }

    pub fn retransmit_all_for_0rtt(&mut self) {
        self.ranges.lose_all();
    }

    pub fn offset(&self) -> u64 {
        self.ranges.numbers_end()
    }

    pub fn is_fully_acked(&self) -> bool {
        self.unacked == 0
    }

    /// quinn looks to the peer's limits when it writes.
    pub fn has_unsent_data(&self) -> bool {
        self.ranges.next(u64::MAX, 1).is_some()
    }

    pub fn unacked(&self) -> u64 {
        self.unacked
    }

    /// Makes room for one more hole in what is in flight.
    fn allow_hole(&mut self) {
        if self.losses >= self.ranges.most_runs() {
            self.make_room();
        }
    }

    /// Makes room for more ranges, if there may be. Without it nothing is forgotten, but more is sent again than what is
    /// lost.
    fn make_room(&mut self) -> bool {
        let most = self.ranges.most_runs();
        let runs = || vec![Run::EMPTY; (2 * most).clamp(FIRST_RUNS.min(MOST_RUNS), MOST_RUNS)];
        if most < MOST_RUNS {
            self.ranges.grow_runs(runs(), runs());
        }
        most < MOST_RUNS
    }
}

impl Default for SendBuffer {
    fn default() -> Self {
        SendBuffer {
            ranges: SendRangesOver::over_at(vec![], vec![], 0),
            segments: VecDeque::new(),
            unacked: 0,
            losses: 0,
        }
    }
}

/// What quinn's unit tests look at, which `run.sh` appends.
#[cfg(test)]
impl SendBuffer {
    fn first(&self) -> u64 {
        self.ranges.numbers().first_unacknowledged
    }

    /// Returns what is acknowledged beyond the first position that isn't.
    fn acks(&self) -> Vec<u64> {
        (self.first()..self.offset()).filter(|pos| self.ranges.is_acknowledged(*pos)).collect()
    }

    /// Returns the bytes that aren't acknowledged in order.
    fn unacked_segments(&self) -> Vec<&[u8]> {
        let ends = self.segments.iter().map(|(end, bytes)| (*end, bytes.len() as u64));
        ends.map(|(end, len)| self.get(self.first().max(end - len)..end)).collect()
    }
}
