// Written by tools/erase.py from crates/net_ends/src/sending_head.rt: a change here would be lost.
//! The rules of a sending end, of numbers alone: what a sender of TCP does with an acknowledgement, with the end of its
//! timer, and with what is to be sent. Rust and C have the same.

use crate::ends::sending_end::{Acknowledged, Expired, Outgoing};
use crate::ends::tcp_buffer::{AckKind, BufferHead, Queued, Sending, TakenAck};
use crate::tcp::{
    is_acknowledgement, Announcement, PeerWindow, RetransmissionTimer, Sack, TimeoutBounds,
};
use core::ops::Range;
use net_base::finite::SentNumbers;
use net_base::storage::Run;
use net_base::time::{Duration, Instant};

/// All of a sending end but its sender and the times that were set: what was reported and what is lost, the timer, and
/// what the peer announced.
///
/// Its calls are given the sender's numbers; who holds both has the sender take what they say. It is numbers and flags
/// alone, so that C has it as it is. One of zeros is new. It is sound if the scoreboard is, with its runs.
#[repr(C)]
#[derive(Copy, Clone, Debug)]
pub struct SendingHead {
    /// What was reported and what is lost.
    pub buffer: BufferHead,
    /// The timer.
    pub timer: RetransmissionTimer,
    /// The peer's window.
    pub peer_window: PeerWindow,
    /// The greatest window that the peer ever announced.
    pub greatest_window: u64,
    /// The window that it announced last.
    pub last_window: u64,
    /// The most bytes of a segment. 0 counts as 1.
    pub segment_size: usize,
    /// Whether Nagle's rule is disabled.
    pub no_delay: bool,
    /// Whether the peer has acknowledged anything, if only this end's SYN.
    pub is_open: bool,
    /// Whether the timeout has passed and nothing was sent since then: nothing is held back, and if the window is
    /// shut, the next segment is a probe of it.
    pub is_window_probe_due: bool,
    /// Whether the next segment is a probe for an answer, if nothing else may be sent.
    pub is_overdue: bool,
}

impl SendingHead {
    /// Returns the rules of an end without a peer, of a stream that begins at position `first`.
    pub(crate) const fn new_at(first: u64, first_timeout: Duration) -> Self {
        SendingHead {
            buffer: BufferHead::new_at(first),
            timer: RetransmissionTimer::new(first_timeout, Sack::Absent),
            peer_window: PeerWindow::new(),
            greatest_window: 0,
            last_window: 0,
            segment_size: 0,
            no_delay: false,
            is_open: false,
            is_window_probe_due: false,
            is_overdue: false,
        }
    }

    /// Begins with a peer, whose SYN announced a window, how many bytes a segment may have, and whether it reports
    /// blocks: one that doesn't couldn't answer a probe, and is sent none. What was written stays. It is done
    /// once, before anything is sent; a second time begins with another peer, and the timer runs if something is in
    /// flight.
    #[inline]
    pub(crate) fn open(
        &mut self,
        numbers: SentNumbers,
        first_timeout: Duration,
        it: Announcement,
        segment_size: usize,
        sack: Sack,
        now: Instant,
    ) {
        self.buffer.recovery.opened(sack);
        self.renew(numbers, first_timeout, sack, now);
        self.peer_window = PeerWindow::of(it);
        self.greatest_window = it.window;
        self.last_window = it.window;
        self.segment_size = segment_size;
        self.is_window_probe_due = false;
        self.is_overdue = false;
    }

    /// Begins again without a peer: the timer stops, unless something is in flight. What was written stays.
    #[inline]
    pub(crate) fn forget(&mut self, numbers: SentNumbers, first_timeout: Duration, now: Instant) {
        self.renew(numbers, first_timeout, Sack::Absent, now);
    }

    /// Begins with a timer that had no sample.
    #[inline]
    fn renew(&mut self, numbers: SentNumbers, first_timeout: Duration, sack: Sack, now: Instant) {
        self.timer = RetransmissionTimer::new(first_timeout, sack);
        if numbers.first_unacknowledged < numbers.sent {
            self.timer.start(now);
        }
        self.is_open = false;
    }

    /// Returns whether a SYN is to be sent now, the first one or one after a timeout, and starts the timer for the
    /// next. Ask it only until your SYN is acknowledged: it doesn't test that.
    #[inline]
    pub(crate) fn is_opening_due(&mut self, bounds: TimeoutBounds, now: Instant) -> bool {
        let is_first = self.timer.expires_at().is_none();
        let has_expired = self.timer.expire(bounds, now).is_some();
        self.timer.start(now);
        has_expired || is_first
    }

    /// Takes what a segment acknowledges and announces, and the blocks that it reports. It `is_empty` if it has no byte
    /// and no FIN. Whatever it says, it can't break the end.
    ///
    /// A block counts that begins above the first number that isn't reported, has a number, and ends where something
    /// was sent and less than 2^32 above that one, if what is reported beyond that one is at most `N` runs then. Any
    /// other block says nothing.
    #[allow(clippy::too_many_arguments)] // a segment has as many fields
    pub(crate) fn acknowledged(
        &mut self,
        runs: &mut [Run],
        numbers: SentNumbers,
        bounds: TimeoutBounds,
        it: Announcement,
        blocks: &[Range<u64>],
        is_empty: bool,
        now: Instant,
    ) -> Acknowledged {
        if !is_acknowledgement(numbers, self.greatest_window, it.ack) {
            return Acknowledged::Refused;
        }
        if it.ack < numbers.first_unacknowledged || numbers.sent < it.ack {
            self.buffer.note_duplicate(numbers, it.ack, blocks);
            return Acknowledged::Old;
        }
        let taken = self.take_accepted(runs, numbers, bounds, it, blocks, is_empty, now);
        Acknowledged::Taken { new: taken.new, reports: taken.reports, begins: taken.begins }
    }

    /// Takes an acknowledgement that the sender takes, and returns what it said.
    #[allow(clippy::too_many_arguments)] // a segment has as many fields
    fn take_accepted(
        &mut self,
        runs: &mut [Run],
        numbers: SentNumbers,
        bounds: TimeoutBounds,
        it: Announcement,
        blocks: &[Range<u64>],
        is_empty: bool,
        now: Instant,
    ) -> TakenAck {
        let kind = if is_empty && it.window == self.last_window {
            AckKind::Repeat
        } else {
            AckKind::Other
        };
        let size = self.segment_size();
        let taken = self.buffer.acknowledged(runs, numbers, it.ack, blocks, size, kind);
        self.take_window(numbers, it);
        self.update_timer(runs, numbers, bounds, it.ack, taken.reports, now);
        taken
    }

    /// Takes the window that is announced, and that a peer answers.
    fn take_window(&mut self, numbers: SentNumbers, it: Announcement) {
        // The timer of the SYN stops, if this is the first acknowledgement and nothing is in flight.
        if !self.is_open && numbers.sent <= numbers.first_unacknowledged {
            self.timer.stop();
        }
        self.is_open = true;
        self.greatest_window =
            greatest_after_update(&mut self.peer_window, self.greatest_window, numbers, it);
        self.last_window = it.window;
    }

    /// Takes the sample of a timed segment that is reported, and tells the timer what was acknowledged, and whether a
    /// block reported what wasn't known.
    fn update_timer(
        &mut self,
        runs: &[Run],
        numbers: SentNumbers,
        bounds: TimeoutBounds,
        ack: u64,
        reports: bool,
        now: Instant,
    ) {
        // A copy: one with times isn't passed twice.
        let sampling = TimeoutBounds {
            least: bounds.least,
            most: bounds.most,
            tick: bounds.tick,
            ack_delay: bounds.ack_delay,
        };
        if let Some(segment) = self.timer.timed() {
            if self.buffer.contains(runs, segment.pos) {
                self.timer.take_sample(sampling, now);
            }
        }
        self.timer.acknowledged(bounds, numbers, ack, now);
        if reports {
            self.timer.reported(now);
        }
    }

    /// Takes notice that the timer's probe is due, and returns what that means. Finds what is overdue, unless the
    /// peer's window is shut, or it reports nothing: then it is sent no probe.
    #[inline]
    pub(crate) fn take_silence(&mut self, runs: &[Run], queued: Queued) -> Expired {
        self.is_window_probe_due = false;
        self.is_overdue = false;
        if self.buffer.recovery.is_blind() {
            return Expired::No;
        }
        if self.is_shut(queued) {
            return Expired::Overdue { begins: false };
        }
        self.is_overdue = true;
        Expired::Overdue { begins: self.buffer.fell_silent(runs, queued.numbers) }
    }

    /// Takes notice that the timeout has passed, and returns what that means. Loses all that was sent and isn't
    /// reported.
    #[inline]
    pub(crate) fn take_timeout(&mut self, queued: Queued) -> Expired {
        self.is_window_probe_due = true;
        self.is_overdue = false;
        if self.is_shut(queued) || queued.numbers.flight_size() == 0 {
            self.buffer.recovery.stalled(queued.numbers);
            Expired::Probe
        } else {
            self.buffer.recovery.timed_out(queued.numbers);
            Expired::Lost
        }
    }

    /// Returns whether the peer's window is shut, and something waits.
    fn is_shut(&self, queued: Queued) -> bool {
        self.peer_window.is_probe_allowed(queued.numbers.first_unacknowledged, queued.end)
    }

    /// Returns the range that is to be sent next, and why: of a window that is shut a probe, once the timeout has
    /// passed; else what `next_range` returns; and else, where no answer came, a probe for one.
    fn choose(
        &self,
        runs: &[Run],
        queued: Queued,
        congestion_window: u64,
    ) -> (Option<Range<u64>>, Sending) {
        let first = queued.numbers.first_unacknowledged;
        if self.is_window_probe_due && self.is_shut(queued) {
            return (Some(first..first + 1), Sending::WindowProbe);
        }
        let limit = self.peer_window.send_limit(queued.end);
        let next = self.next_range(runs, queued, limit, congestion_window);
        if next.is_some() || !self.is_overdue {
            return (next, Sending::Segment);
        }
        (self.next_probe(runs, queued.numbers, limit), Sending::TailProbe)
    }

    /// Returns what a probe for an answer sends below a limit.
    fn next_probe(&self, runs: &[Run], numbers: SentNumbers, limit: u64) -> Option<Range<u64>> {
        self.buffer.next_probe(runs, numbers, limit, self.segment_size())
    }

    /// Returns what the recovery sends next below a limit, unless that is held back.
    fn next_range(
        &self,
        runs: &[Run],
        queued: Queued,
        limit: u64,
        congestion_window: u64,
    ) -> Option<Range<u64>> {
        let range = self.buffer.next(
            runs,
            queued.numbers,
            limit,
            congestion_window,
            self.segment_size(),
        )?;
        if self.is_due(queued, range.start, range.end) {
            Some(range)
        } else {
            None
        }
    }

    /// Returns whether a range isn't held back: the timer asks for it, it was sent before, or it is worth a segment.
    fn is_due(&self, queued: Queued, from: u64, to: u64) -> bool {
        let hurries = self.is_window_probe_due || self.is_overdue;
        hurries || from < queued.numbers.sent || self.is_worth(queued, from, to)
    }

    /// Returns whether a range is worth a segment (RFC 9293, 3.8.6.2.1): a whole one; or, unless Nagle's rule has it
    /// wait, all that is left, or half of the greatest window that the peer announced. By that rule it waits while
    /// something is in flight, and the stream isn't closed.
    fn is_worth(&self, queued: Queued, from: u64, to: u64) -> bool {
        let numbers = queued.numbers;
        let is_whole = self.segment_size() as u64 <= to.saturating_sub(from);
        let waits = self.nagle_enabled()
            && numbers.first_unacknowledged < numbers.sent
            && !queued.is_closed;
        is_whole || self.is_enough(queued, from, to) && !waits
    }

    /// Returns whether a range is all that is left, or half of the greatest window that the peer announced.
    fn is_enough(&self, queued: Queued, from: u64, to: u64) -> bool {
        let len = to.saturating_sub(from);
        queued.end <= to || self.greatest_window.saturating_sub(len) <= len
    }

    /// Returns the segment that is to be sent now, and counts it as sent: if the peer's window and the congestion
    /// window have room for one, or as a probe. What was never sent is held back if it is less than a segment, unless
    /// it is all that is left, or half of the greatest window that the peer announced (RFC 9293, 3.8.6.2.1), and
    /// Nagle's rule doesn't have it wait. Once the timer has ended, the next segment isn't held back. While anything
    /// that was written isn't acknowledged, the timer runs.
    pub(crate) fn next_segment(
        &mut self,
        runs: &[Run],
        queued: Queued,
        bounds: TimeoutBounds,
        congestion_window: u64,
        now: Instant,
    ) -> Option<Outgoing> {
        let (chosen, sending) = self.choose(runs, queued, congestion_window);
        let Some(range) = chosen else {
            // Not before something is sent: what `start` starts has no probe.
            if queued.numbers.first_unacknowledged < queued.end {
                self.timer.start(now);
            }
            return None;
        };
        let (from, to) = (range.start, range.end);
        self.timer.sent(bounds, from..to, queued.numbers, now);
        self.is_window_probe_due = false;
        self.is_overdue = false;
        self.buffer.sent(queued.numbers, range, sending);
        Some(Outgoing { pos: from, end: to, is_again: from < queued.numbers.sent })
    }

    /// Returns the smoothed time of a round trip, once there was a sample.
    #[inline]
    #[must_use]
    pub(crate) fn round_trip(&self) -> Option<Duration> {
        self.timer.rtt().map(|estimate| estimate.srtt())
    }

    /// Returns whether Nagle's rule is enabled.
    #[must_use]
    #[inline]
    pub(crate) fn nagle_enabled(&self) -> bool {
        !self.no_delay
    }

    /// Returns the most bytes of a segment.
    #[must_use]
    #[inline]
    pub(crate) fn segment_size(&self) -> usize {
        self.segment_size.max(1)
    }

    /// Enables Nagle's rule (RFC 9293, 3.7.4), or disables it. While something that was sent isn't acknowledged, less
    /// than a whole segment waits by it, unless the stream is closed or the timer has ended. It is enabled at first, as
    /// in a socket of smoltcp: the RFC wants it so. Disable it where few bytes are written at a time, and none of them
    /// is to wait.
    #[inline]
    pub(crate) fn set_nagle_enabled(&mut self, enabled: bool) {
        self.no_delay = !enabled;
    }
}

/// Takes the window that is announced. Returns the greatest one so far.
fn greatest_after_update(
    peer: &mut PeerWindow,
    greatest: u64,
    numbers: SentNumbers,
    it: Announcement,
) -> u64 {
    if peer.update(numbers, it) {
        greatest.max(it.window)
    } else {
        greatest
    }
}
