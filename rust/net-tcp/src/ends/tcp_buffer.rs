// Written by tools/erase.py from crates/net_ends/src/tcp_buffer.rt: a change here would be lost.
//! What a sending end of TCP has sent, without a clock: what was reported of it, and what is lost by TCP's rules. (A
//! stream of QUIC has `net_receiver`'s `SendBuffer`, which is told of each loss.)

use crate::tcp::{
    is_duplicate_block, is_equal_acknowledgement, Answer, LentScoreboard, LossRecovery,
};
use core::ops::Range;
use net_base::finite::SentNumbers;
use net_base::internal::ScoreboardHead;
use net_base::storage::Run;

/// What a sender has sent, and what is queued, in numbers.
#[derive(Copy, Clone, Debug, PartialEq, Eq)]
pub struct Queued {
    /// The first number that isn't acknowledged, and the one after the last that was sent.
    pub numbers: SentNumbers,
    /// The number after the last byte's, and after the end's once the stream is closed.
    pub end: u64,
    /// Whether the stream ends after what was written.
    pub is_closed: bool,
}

/// What was reported and what is lost of what a sender has sent: a scoreboard, and a recovery.
///
/// Its calls are given the sender's numbers and the scoreboard's runs; who holds both has the sender take what they
/// say. A head of zeros is new, of a stream that begins at position 0. It is sound if the scoreboard is, with the runs.
#[repr(C)]
#[derive(Copy, Clone, Debug)]
pub struct BufferHead {
    /// What was reported, with runs that the caller keeps.
    pub scoreboard: ScoreboardHead,
    /// What is lost.
    pub recovery: LossRecovery,
}

/// What kind of segment an acknowledgement came in. By it a sender of TCP tells one that only repeats the last, from
/// which it learns that a segment has arrived (RFC 5681, section 2).
#[derive(Copy, Clone, Debug, PartialEq, Eq)]
pub(crate) enum AckKind {
    /// It has no byte and no FIN, and announces the window that was announced last.
    Repeat,
    /// Any other: it has bytes or a FIN, or announces another window.
    Other,
}

impl AckKind {
    /// Returns whether it only repeats the last.
    fn is_repeat(self) -> bool {
        matches!(self, AckKind::Repeat)
    }
}

/// What an acknowledgement said that was taken.
#[derive(Copy, Clone, Debug, PartialEq, Eq)]
pub(crate) struct TakenAck {
    /// How many numbers it acknowledged that weren't before.
    pub new: u64,
    /// Whether a block of it reports what wasn't known.
    pub reports: bool,
    /// Whether it begins a recovery: then halve the congestion window.
    pub begins: bool,
}

/// Why a range is sent.
#[derive(Copy, Clone, Debug, PartialEq, Eq)]
pub(crate) enum Sending {
    /// As `next` returned it: a segment, or a part of it from its start on.
    Segment,
    /// As `next_probe` returned it: a probe for an answer (RFC 8985, 7.3).
    TailProbe,
    /// The peer's window is shut, so that it drops the range: a probe of the window (RFC 9293, 3.8.6.1).
    WindowProbe,
}

impl BufferHead {
    /// Returns that nothing was reported of a stream that begins at position `first`, and nothing is lost.
    pub(crate) const fn new_at(first: u64) -> Self {
        BufferHead { scoreboard: ScoreboardHead::new_at(first), recovery: LossRecovery::new() }
    }

    /// Lends the scoreboard.
    fn board<'a>(&self, runs: &'a [Run]) -> LentScoreboard<'a> {
        LentScoreboard::new(self.scoreboard, runs)
    }

    /// Returns whether a position was reported.
    pub(crate) fn contains(&self, runs: &[Run], pos: u64) -> bool {
        self.scoreboard.contains(runs, pos)
    }

    /// Takes an acknowledgement of all below `ack` that the sender takes, with its blocks, in a segment of that
    /// kind. `numbers` are the sender's before that.
    pub(crate) fn acknowledged(
        &mut self,
        runs: &mut [Run],
        numbers: SentNumbers,
        ack: u64,
        blocks: &[Range<u64>],
        segment_size: usize,
        kind: AckKind,
    ) -> TakenAck {
        let before = self.recovery.before(numbers, &self.board(runs));
        self.scoreboard.acknowledge(runs, ack);
        let reports = report_blocks(&mut self.scoreboard, runs, blocks, numbers.sent);
        let is_bare = kind.is_repeat() && !has_block(blocks);
        let answer =
            Answer { before, reports, is_equal: is_equal_acknowledgement(numbers, ack, is_bare) };
        let begins = self.find_losses(runs, numbers, ack, blocks, segment_size, answer);
        TakenAck { new: ack.saturating_sub(numbers.first_unacknowledged), reports, begins }
    }

    /// Finds what is lost by an acknowledgement, and returns whether a recovery begins.
    fn find_losses(
        &mut self,
        runs: &[Run],
        numbers: SentNumbers,
        ack: u64,
        blocks: &[Range<u64>],
        segment_size: usize,
        answer: Answer,
    ) -> bool {
        self.note_duplicate(numbers, ack, blocks);
        let after = SentNumbers { first_unacknowledged: ack, sent: numbers.sent };
        find_losses(&mut self.recovery, &mut self.scoreboard, runs, after, segment_size, answer)
    }

    /// Tells the recovery, if the first block reports what came twice.
    pub(crate) fn note_duplicate(&mut self, numbers: SentNumbers, ack: u64, blocks: &[Range<u64>]) {
        if is_duplicated(ack, blocks) {
            let block = &blocks[0];
            self.recovery.came_twice(numbers, block.start..block.end);
        }
    }

    /// Returns whether the last recovery was for nothing, and ends it then.
    pub(crate) fn take_back(&mut self, runs: &[Run], numbers: SentNumbers) -> bool {
        let board = self.board(runs);
        self.recovery.take_back(numbers, &board)
    }

    /// Finds what is overdue, where nothing was reported for two round trips, and returns whether a recovery begins.
    pub(crate) fn fell_silent(&mut self, runs: &[Run], numbers: SentNumbers) -> bool {
        let board = self.board(runs);
        self.recovery.fell_silent(numbers, &board)
    }

    /// Returns the range to send next below `limit`, at most a segment: what is lost, else what was never sent. `None`
    /// if there is none, or if with a whole segment more than the congestion window would be in flight. The first
    /// unacknowledged number is sent whatever is in flight.
    pub(crate) fn next(
        &self,
        runs: &[Run],
        numbers: SentNumbers,
        limit: u64,
        congestion_window: u64,
        segment_size: usize,
    ) -> Option<Range<u64>> {
        self.recovery.next_segment(
            numbers,
            &self.board(runs),
            limit,
            congestion_window,
            segment_size,
        )
    }

    /// Returns what a probe for an answer sends below `limit`, whatever is in flight: in a recovery the first segment
    /// that isn't reported, else a new one, and if the limit allows none, the last one.
    pub(crate) fn next_probe(
        &self,
        runs: &[Run],
        numbers: SentNumbers,
        limit: u64,
        segment_size: usize,
    ) -> Option<Range<u64>> {
        self.recovery.next_probe(numbers, &self.board(runs), limit, segment_size)
    }

    /// Takes notice that a range is sent now, and why. `numbers` are the sender's before that.
    pub(crate) fn sent(&mut self, numbers: SentNumbers, range: Range<u64>, sending: Sending) {
        match sending {
            Sending::Segment => self.recovery.sent(numbers, range),
            Sending::TailProbe => self.recovery.probe_sent(numbers, range),
            // The peer drops it.
            Sending::WindowProbe => self.recovery.stalled(SentNumbers {
                first_unacknowledged: numbers.first_unacknowledged,
                sent: numbers.sent.max(range.end),
            }),
        }
    }
}

/// Finds what is lost by an acknowledgement, and returns whether a recovery begins. If the peer has dropped what it had
/// reported, that is lost: else it would acknowledge it (RFC 2018, section 8). Nothing counts as reported any more
/// then. A function of its own: where something was dropped, nothing is searched.
fn find_losses(
    recovery: &mut LossRecovery,
    board: &mut ScoreboardHead,
    runs: &[Run],
    after: SentNumbers,
    segment_size: usize,
    answer: Answer,
) -> bool {
    let seen = LentScoreboard::new(*board, runs);
    if has_dropped(board, runs, after) {
        let begins = recovery.reports_dropped(after, &seen);
        *board = ScoreboardHead::new_at(after.first_unacknowledged);
        return begins;
    }
    recovery.acknowledged(after, &seen, segment_size, answer)
}

/// Returns whether the peer has dropped what it had reported: it acknowledges up to such a number.
fn has_dropped(board: &ScoreboardHead, runs: &[Run], after: SentNumbers) -> bool {
    after.first_unacknowledged < after.sent && board.contains(runs, after.first_unacknowledged)
}

/// Reports blocks. Returns whether one of them reports what wasn't known.
fn report_blocks(
    board: &mut ScoreboardHead,
    runs: &mut [Run],
    blocks: &[Range<u64>],
    sent: u64,
) -> bool {
    let mut reports = false;
    for block in blocks {
        if report_block(board, runs, block, sent) {
            reports = true;
        }
    }
    reports
}

/// Reports a block, if it begins beyond the first position that wasn't reported. Returns whether that wasn't known:
/// what is refused is sent again.
fn report_block(
    board: &mut ScoreboardHead,
    runs: &mut [Run],
    block: &Range<u64>,
    sent: u64,
) -> bool {
    if block.start <= board.first_unreported() {
        return false;
    }
    let is_new = board.first_missing(runs, block.start) < block.end;
    board.report(runs, block.start, block.end, sent).is_ok() && is_new
}

/// Returns whether one of the blocks has a position.
fn has_block(blocks: &[Range<u64>]) -> bool {
    blocks.iter().any(|block| block.start < block.end)
}

/// Returns whether the first block reports what came twice.
fn is_duplicated(ack: u64, blocks: &[Range<u64>]) -> bool {
    if blocks.is_empty() {
        return false;
    }
    is_duplicate_block(ack, &blocks[0], blocks.get(1))
}
