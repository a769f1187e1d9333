//! One connection of TCP. Positions have 64 bits, and their low 32 bits are the sequence numbers;
//! the first byte of each direction is at 2^32 or above. The SYN is before it, the FIN after the
//! last one.
use net_base::sequence_number::{Numbering, SequenceNumber};
use net_base::time::{Duration, Instant};
use net_tcp::{scale_for, scaled, Announcement, AnswerLimit, Arrival, Sack, TimeoutBounds};
use net_tcp::{
    AckFields, AckSegment, Acknowledged, Expired, ReceivingEnd, SegmentBytes, SendingEnd,
};

use crate::timestamps::{self, Timestamps};
use crate::wire::{End, Ends, Segment, ACK, FIN, RST, SYN};

/// The most bytes of a segment that this end takes.
const OWN_MSS: u16 = 1460;
/// The most bytes of a segment to a peer that doesn't say how many it takes (RFC 9293, 3.7.1).
const DEFAULT_MSS: u16 = 536;
/// RFC 6298 wants 1 s at least. The path here takes microseconds, and Linux too waits 0.2 s.
const BOUNDS: TimeoutBounds = {
    let mut bounds = TimeoutBounds::new();
    bounds.least = Duration::from_millis(200);
    bounds.tick = Duration::from_micros(1);
    bounds
};
/// The timeout before any sample.
const FIRST_TIMEOUT: Duration = Duration::from_secs(1);

/// The position of the first byte after a SYN.
fn first_after(syn: u32) -> u64 {
    Numbering::first_position() + u64::from(syn) + 1
}

/// The position near to `near` that has a number.
fn position(number: u32, near: u64) -> u64 {
    let zero = SequenceNumber::new(0);
    Numbering { first: zero }.position(SequenceNumber::new(number), near)
}

/// The states of RFC 9293, 3.3.2. The two ends know which of those from ESTABLISHED on it is.
#[derive(Clone, Copy, PartialEq, Eq, Debug)]
pub enum State {
    Listen,
    SynSent,
    SynReceived,
    Established,
    /// The peer has reset the connection.
    Reset,
    /// No answer has come in time.
    Silent,
}

/// What an endpoint may be told.
#[derive(Clone, Copy)]
pub struct Options {
    /// How long it waits for an answer, and for that to a SYN, before it gives up (RFC 9293, 3.8.3).
    pub gives_up: Duration,
    pub gives_up_opening: Duration,
    /// After how long a silence it asks whether the peer is there, if at all (RFC 9293, 3.8.4).
    pub keep_alive: Option<Duration>,
}

impl Default for Options {
    fn default() -> Options {
        let [gives_up, gives_up_opening] = [100, 180].map(Duration::from_secs);
        Options { gives_up, gives_up_opening, keep_alive: None }
    }
}

#[derive(Default)]
pub struct Counts {
    pub taken: u64,
    pub refused: u64,
    pub most_held: usize,
    pub sent: u64,
    pub sent_again: u64,
    pub timeouts: u64,
    pub probes: u64,
}

pub struct Endpoint<const N: usize> {
    pub ends: Ends,
    pub state: State,
    pub options: Options,
    pub counts: Counts,
    pub receiving: ReceivingEnd<'static, N>,
    pub sending: SendingEnd<'static, 32>,
    listens: bool,
    /// The own SYN, which answers the peer's once that has come.
    syn: Segment<'static>,
    peer_scale: u8,
    pub timestamps: Timestamps,
    /// How much may be in flight, and up to where slow start lets that grow; and what both were before they were
    /// halved, as long as that may be taken back.
    window: u64,
    threshold: u64,
    before: Option<(u64, u64)>,
    /// What was sent when they were halved last: until it is acknowledged, that recovery lasts.
    recovers_until: u64,
    /// How much was in flight when something was sent last.
    flight: u64,
    /// Since when an answer is due.
    unanswered_since: Option<Instant>,
    /// When the last answer came, or was asked for by `question`.
    quiet_since: Option<Instant>,
    /// How often what isn't taken is answered.
    answers: AnswerLimit,
}

impl<const N: usize> Endpoint<N> {
    /// Returns an endpoint that listens, or one that opens a connection. `initial` is the number of
    /// its SYN.
    pub fn new(ends: Ends, listens: bool, initial: u32, capacity: usize) -> Self {
        let first = first_after(initial);
        let mut receiving = ReceivingEnd::new_at(vec![0; capacity], 0, OWN_MSS);
        let syn = Segment {
            number: initial,
            flags: SYN,
            window: receiving.open(0, 0),
            mss: Some(OWN_MSS),
            scale: Some(scale_for(capacity as u64)),
            selective: true,
            ..Segment::default()
        };
        Endpoint {
            ends,
            state: if listens { State::Listen } else { State::SynSent },
            options: Options::default(),
            counts: Counts::default(),
            receiving,
            sending: SendingEnd::new_at(vec![0; capacity], first, FIRST_TIMEOUT, BOUNDS),
            listens,
            syn,
            peer_scale: 0,
            timestamps: Timestamps::new(initial),
            window: 0,
            threshold: u64::MAX,
            before: None,
            recovers_until: 0,
            flight: 0,
            unanswered_since: None,
            quiet_since: None,
            answers: AnswerLimit::new(),
        }
    }

    /// Returns whether the peer's FIN has come, and the own one is acknowledged.
    pub fn is_closed(&self) -> bool {
        self.receiving.receiver().is_complete() && self.sending.is_done()
    }

    /// Takes a segment that came from `from`. Returns the packet that answers it at once, if one does.
    pub fn take(&mut self, from: End, segment: &Segment, now: Instant) -> Option<Vec<u8>> {
        self.timestamps.tick(now);
        let kind = segment.flags & (SYN | ACK | RST);
        let has_ack = kind & ACK != 0;
        let is_of_syn = segment.acknowledged == first_after(self.syn.number) as u32;
        let is_again = kind == SYN && first_after(segment.number) as u32 == self.syn.acknowledged;
        if self.state == State::Listen {
            self.ends.there = from;
        }
        match self.state {
            _ if from != self.ends.there => {}
            State::Listen if has_ack => return self.refuse(segment),
            State::SynSent if has_ack && !is_of_syn => return self.refuse(segment),
            State::SynSent if has_ack && kind & RST != 0 => self.end(State::Reset, now),
            State::SynSent if kind == SYN | ACK => {
                self.take_syn(segment, now);
                self.heard(now);
                return Some(self.acknowledgement());
            }
            State::Listen | State::SynSent if kind == SYN => self.take_syn(segment, now),
            // The SYN again: the answer to it was lost. Not every peer takes an acknowledgement alone.
            State::SynReceived if is_again => return Some(self.syn_packet()),
            State::SynReceived | State::Established => return self.take_synchronized(segment, now),
            _ => {}
        }
        None
    }

    /// Returns the answer to a segment before the connection is open that acknowledges what was never
    /// sent, or what is too far below: a reset.
    fn refuse(&mut self, segment: &Segment) -> Option<Vec<u8>> {
        let reset = Segment { number: segment.acknowledged, flags: RST, ..Segment::default() };
        Some(reset.packet(&self.ends)).filter(|_| segment.flags & RST == 0)
    }

    /// Takes the peer's SYN. The own one then answers it, with the options that both ends have.
    fn take_syn(&mut self, segment: &Segment, now: Instant) {
        let first = first_after(segment.number);
        let capacity = self.receiving.receiver().receiver().capacity();
        let scale = segment.scale.map(|_| scale_for(capacity as u64));
        self.syn.acknowledged = first as u32;
        self.syn.flags = SYN | ACK;
        self.syn.window = self.receiving.open(first, scale.unwrap_or(0));
        (self.syn.scale, self.syn.selective) = (scale, segment.selective);
        let begin = self.sending.numbers().first_unacknowledged;
        let peer = Announcement { seq: first - 1, ack: begin, window: segment.window.into() };
        self.timestamps.open(segment, first);
        let options = if self.timestamps.are_agreed() { timestamps::LEN } else { 0 };
        let mss = segment.mss.unwrap_or(DEFAULT_MSS).clamp(options + 1, OWN_MSS) - options;
        let sack = if segment.selective { Sack::Permitted } else { Sack::Absent };
        self.sending.open(peer, mss.into(), sack, now);
        self.peer_scale = segment.scale.unwrap_or(0);
        self.window = 10 * u64::from(mss);
        self.state = State::SynReceived;
    }

    /// Returns the own SYN. It offers timestamps, or has them as the peer's has.
    fn syn_packet(&mut self) -> Vec<u8> {
        self.syn.timestamps = match self.state {
            State::SynSent => self.timestamps.offer(),
            _ => self.timestamps.tell(self.receiving.receiver().acknowledged()),
        };
        self.syn.packet(&self.ends)
    }

    /// Takes a segment as `classify` says: what it acknowledges, and then its bytes and its end.
    fn take_synchronized(&mut self, segment: &Segment, now: Instant) -> Option<Vec<u8>> {
        if self.timestamps.are_missing(segment) {
            return None;
        }
        let pos = position(segment.number, self.receiving.receiver().acknowledged());
        let placed = net_tcp::Segment::new(pos, segment.payload.len(), segment.flags);
        let arrival = self.receiving.classify(placed);
        match arrival {
            Arrival::Take if placed.len > 0 && self.timestamps.is_old(segment) => {
                return self.answer(placed, now);
            }
            Arrival::Take | Arrival::AcknowledgementOnly => {}
            Arrival::Answer => {
                // All of it came before: the answer says so (RFC 2883). Nothing of it is kept.
                let is_text = segment.flags & (SYN | RST) == 0;
                let end = pos + segment.payload.len() as u64;
                if is_text && end <= self.receiving.receiver().acknowledged() {
                    let _nothing = self.receiving.arrived(pos, segment.payload, false);
                }
                return self.answer(placed, now);
            }
            Arrival::Ignore => return None,
            Arrival::Reset => {
                self.end(State::Reset, now);
                return None;
            }
        }
        let ack = position(segment.acknowledged, self.sending.numbers().first_unacknowledged);
        let peer = Announcement { seq: pos, ack, window: scaled(segment.window, self.peer_scale) };
        let at = |(start, end)| position(start, ack)..position(end, ack);
        let blocks = segment.blocks.map(|block| block.map_or(0..0, at));
        let carrier = if placed.len == 0 { AckSegment::Pure } else { AckSegment::WithData };
        let is_new = ack > self.sending.numbers().first_unacknowledged;
        match self.sending.acknowledged(peer, &blocks, carrier, now) {
            Acknowledged::Taken { begins: true, .. } => self.halve(),
            Acknowledged::Taken { new, .. } => self.grow(new),
            Acknowledged::Old if self.state == State::Established => {}
            Acknowledged::Refused if self.state == State::Established => {
                return self.answer(placed, now);
            }
            _ => return self.refuse(segment),
        }
        self.timestamps.take(segment, pos);
        let is_for_nothing = is_new && self.timestamps.is_for_nothing(segment);
        if self.sending.take_back() || is_for_nothing {
            self.restore();
        }
        self.heard(now);
        if arrival == Arrival::AcknowledgementOnly {
            return Some(self.acknowledgement());
        }
        let fin = segment.flags & FIN != 0;
        let kept = self.receiving.arrived(pos, segment.payload, fin);
        let held = self.receiving.receiver().receiver().held_count();
        self.counts.taken += u64::from(placed.len > 0);
        self.counts.refused += u64::from(kept.is_err());
        self.counts.most_held = self.counts.most_held.max(held);
        self.receiving.is_due().then(|| self.acknowledgement())
    }

    /// Returns the answer to a segment of which nothing is taken, if it is to be answered.
    fn answer(&mut self, it: net_tcp::Segment, now: Instant) -> Option<Vec<u8>> {
        self.answers.allows(it, now).then(|| self.acknowledgement())
    }

    /// Takes notice of an answer.
    fn heard(&mut self, now: Instant) {
        self.state = State::Established;
        (self.unanswered_since, self.quiet_since) = (None, Some(now));
    }

    /// Ends the connection, and listens again if it wasn't open and this end listened.
    fn end(&mut self, state: State, now: Instant) {
        (self.unanswered_since, self.quiet_since) = (None, None);
        if self.listens && self.state == State::SynReceived {
            self.state = State::Listen;
            self.sending.forget(now);
        } else if !self.is_closed() {
            self.state = state;
        }
    }

    /// Slow start and congestion avoidance, by RFC 5681. In slow start an acknowledgement of many segments counts as
    /// one of 8 (RFC 9406, 4.3, without pacing: a busy receiver acknowledges as many at once), and after a timeout as
    /// one of 2 (RFC 3465): what it jumps over has left the path before.
    fn grow(&mut self, count: u64) {
        let mss = self.sending.segment_size() as u64;
        let most = if self.threshold == u64::MAX { 8 * mss } else { 2 * mss };
        if self.window < self.threshold {
            self.window += count.min(most);
        } else if count > 0 && !self.sending.is_recovering() {
            self.window += (mss * count / self.window).clamp(1, mss);
        }
    }

    /// Halves the congestion window: to half of what was in flight before the acknowledgements that came together and
    /// tell of the loss.
    fn halve(&mut self) {
        self.timestamps.halved();
        let numbers = self.sending.numbers();
        if numbers.first_unacknowledged >= self.recovers_until {
            self.before = Some((self.window, self.threshold));
        }
        self.recovers_until = numbers.sent;
        let mss = self.sending.segment_size() as u64;
        self.threshold = (self.flight.max(self.sending.flight_size()) / 2).max(2 * mss);
        self.window = self.threshold;
    }

    /// Takes the last halving back: nothing was lost.
    fn restore(&mut self) {
        if let Some((window, threshold)) = self.before.take() {
            self.window = self.window.max(window);
            self.threshold = self.threshold.max(threshold);
        }
        self.recovers_until = 0;
    }

    /// Returns when `next_packet` is to be called.
    pub fn expires_at(&self) -> Option<Instant> {
        let is_over = matches!(self.state, State::Reset | State::Silent);
        let timers = [self.sending.expires_at(), self.gives_up_at(), self.asks_at()];
        timers.into_iter().flatten().min().filter(|_| !is_over)
    }

    /// Returns when an answer is too late.
    fn gives_up_at(&self) -> Option<Instant> {
        let Options { gives_up, gives_up_opening, .. } = self.options;
        let is_open = self.state == State::Established;
        Some(self.unanswered_since? + if is_open { gives_up } else { gives_up_opening })
    }

    /// Returns when to ask whether the peer is there: not while an answer to something else is due.
    fn asks_at(&self) -> Option<Instant> {
        let is_idle = self.sending.flight_size() == 0 && !self.is_closed();
        Some(self.quiet_since.filter(|_| is_idle)? + self.options.keep_alive?)
    }

    /// Returns the next packet that is to be sent now, if there is one.
    pub fn next_packet(&mut self, now: Instant) -> Option<Vec<u8>> {
        self.timestamps.tick(now);
        if self.gives_up_at().is_some_and(|at| at <= now) {
            self.end(State::Silent, now);
        }
        let packet = match self.state {
            State::Listen | State::Reset | State::Silent => return None,
            State::SynSent | State::SynReceived => {
                self.sending.is_opening_due(now).then(|| self.syn_packet())
            }
            State::Established => {
                self.expire(now);
                let packet = self.text(now).or_else(|| self.question(now));
                packet.or_else(|| self.receiving.is_wanted().then(|| self.acknowledgement()))
            }
        };
        if self.state != State::Established || self.sending.flight_size() > 0 {
            self.unanswered_since.get_or_insert(now);
        }
        packet
    }

    /// Takes notice of the timer, if it has ended.
    fn expire(&mut self, now: Instant) {
        let expired = self.sending.expired(now);
        match expired {
            Expired::Overdue { begins: true } => self.halve(),
            Expired::Lost => {
                self.halve();
                self.timestamps.expired();
                self.window = self.sending.segment_size() as u64;
            }
            _ => {}
        }
        self.counts.probes += u64::from(matches!(expired, Expired::Overdue { .. }));
        self.counts.timeouts += u64::from(matches!(expired, Expired::Probe | Expired::Lost));
    }

    /// Returns a segment at a position that acknowledges what has come.
    fn header(&mut self, pos: u64) -> Segment<'static> {
        let AckFields { next, window } = self.receiving.announce();
        let (number, acknowledged) = (pos as u32, next as u32);
        let timestamps = self.timestamps.tell(next);
        Segment { number, acknowledged, flags: ACK, window, timestamps, ..Segment::default() }
    }

    /// Returns the next bytes, and the end, for which both windows have room.
    fn text(&mut self, now: Instant) -> Option<Vec<u8>> {
        let segment = self.sending.next_segment(self.window, now)?;
        self.flight = self.sending.flight_size();
        let header = self.header(segment.pos);
        let SegmentBytes { front: payload, back: more, fin } = self.sending.bytes(segment.range());
        let flags = if fin { ACK | FIN } else { ACK };
        self.counts.sent += 1;
        self.counts.sent_again += u64::from(segment.is_again);
        if segment.is_again {
            self.timestamps.sent_again();
        }
        Some(Segment { flags, payload, more, ..header }.packet(&self.ends))
    }

    /// Asks whether the peer is there, if that is due: it has this number, and so it acknowledges.
    fn question(&mut self, now: Instant) -> Option<Vec<u8>> {
        self.asks_at().filter(|at| *at <= now)?;
        self.unanswered_since.get_or_insert(now);
        self.quiet_since = Some(now);
        let pos = self.sending.numbers().first_unacknowledged - 1;
        Some(self.header(pos).packet(&self.ends))
    }

    /// Acknowledges what has come, with its blocks.
    fn acknowledgement(&mut self) -> Vec<u8> {
        let told = self.receiving.acknowledgement();
        let mut blocks = [None; 4];
        for (block, range) in blocks.iter_mut().zip(&told.blocks) {
            *block = Some((range.start as u32, range.end as u32));
        }
        self.counts.sent += 1;
        Segment {
            number: self.sending.empty_segment_position() as u32,
            acknowledged: told.next as u32,
            flags: ACK,
            window: told.window,
            blocks: if self.syn.selective { blocks } else { [None; 4] },
            timestamps: self.timestamps.tell(told.next),
            ..Segment::default()
        }
        .packet(&self.ends)
    }
}
