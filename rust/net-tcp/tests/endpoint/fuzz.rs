//! Random segments, calls and times. A model has the rules by which the endpoint's packets are
//! judged: RFC 9293, section 3.10.7.4, and RFC 5961. It counts from the first byte of each stream.
use net_base::rand::Rand;
use net_base::time::{Duration, Instant};

use crate::peer::*;
use crate::tcp::State;

/// Fewer where the processor may be emulated.
const RUNS: u32 = if cfg!(target_pointer_width = "64") { 1_000 } else { 50 };
const STEPS: u32 = 200;

fn byte(stream: usize, at: i64) -> u8 {
    ((at + at / 251) % 251) as u8 ^ [0, 0x55][stream]
}

struct Model {
    talk: Talk<4>,
    rand: Rand,
    capacity: i64,
    mss: i64,
    scales: (u32, u32),
    /// What the endpoint has read and promised, and where the peer's stream ends.
    read: i64,
    promised: i64,
    end: Option<i64>,
    is_complete: bool,
    has_read_all: bool,
    /// What it has written, and the numbers of it that it sent and that were acknowledged.
    written: i64,
    closed: bool,
    sent: i64,
    acked: i64,
    /// The end of the peer's window, and the segment that it is from.
    edge: i64,
    newest: (i64, i64),
    answers_from: Instant,
    greatest: i64,
}

impl Model {
    fn new(seed: u32) -> Model {
        let mut rand = Rand::new(seed.into());
        let capacity = [1, 2, 100, 1_000, 5_000, 80_000][rand.below(6) as usize];
        let options = [&[][..], OPTIONS, &[2, 4, 0, 100, 1, 3, 3, 0]][rand.below(3) as usize];
        let own_scale = if options.is_empty() || capacity < 65_536 { 0 } else { 1 };
        let (mss, scale) = match options.len() {
            0 => (536, 0),
            8 => (100, 0),
            _ => (1_000, 2),
        };
        let talk = Talk::open(capacity, options);
        let mut model = Model {
            talk,
            rand,
            capacity: capacity as i64,
            mss,
            scales: (own_scale, scale),
            read: 0,
            promised: capacity.min(0xffff) as i64,
            end: None,
            is_complete: false,
            has_read_all: false,
            written: 0,
            closed: false,
            sent: 0,
            acked: 0,
            edge: 0x4000 << scale,
            newest: (0, 0),
            answers_from: Instant::from_micros(i64::MIN),
            greatest: 0x4000 << scale,
        };
        if own_scale > 0 {
            model.promised = model.capacity;
        }
        model
    }

    fn below(&mut self, bound: i64) -> i64 {
        self.rand.below(bound.clamp(1, 1 << 31) as u32).into()
    }

    /// One of these, by chance.
    fn any<const K: usize>(&mut self, of: [i64; K]) -> i64 {
        of[self.below(K as i64) as usize]
    }

    /// The number that the endpoint acknowledges.
    fn next(&self) -> i64 {
        let first = (1u64 << 32) + u64::from(PEER) + 1;
        (self.talk.endpoint.receiving.receiver().acknowledged() - first) as i64
    }

    /// Judges a packet of the endpoint.
    fn judge(&mut self, packet: &Packet) {
        let has_end = packet.flags & FIN != 0;
        let (at, len) = (i64::from(packet.at()), packet.payload.len() as i64);
        assert_eq!(packet.flags & !FIN, ACK);
        assert!(len <= self.mss, "{len} bytes");
        for (place, found) in packet.payload.iter().enumerate() {
            assert_eq!(*found, byte(1, at + place as i64), "byte {at} + {place}");
        }
        let end = at + len + i64::from(has_end);
        assert!(at + len <= self.written + i64::from(self.closed), "{at} + {len}");
        assert!(!has_end || self.closed && at + len == self.written);
        if end == at {
            let number = self.sent.min(self.edge.max(self.acked));
            assert_eq!(at, number, "an acknowledgement isn't beyond the window");
        } else {
            assert!(self.acked <= at && at <= self.sent, "{at}: neither again nor next");
            let is_probe = self.edge <= self.acked && (at, end) == (self.acked, self.acked + 1);
            assert!(end <= self.edge || is_probe, "{at} to {end}, though {}", self.edge);
        }
        self.sent = self.sent.max(end);
        assert_eq!(i64::from(packet.acked()), self.next());
        let promised = self.next() + (i64::from(packet.window) << self.scales.0);
        assert!(packet.window == 0 || promised <= self.read + self.capacity, "no such room");
        self.promised = self.promised.max(promised);
        let held = self.talk.endpoint.receiving.receiver().receiver().held();
        let first = (1u64 << 32) + u64::from(PEER) + 1;
        let held = held.map(|run| ((run.0 - first) as u32, (run.1 - first) as u32));
        let held = held.collect::<Vec<_>>();
        // The first block can be of what came twice.
        let (blocks, next) = (packet.blocks(), self.next() as u32);
        let is_within =
            |(start, end)| held.iter().any(|run: &(u32, u32)| run.0 <= start && end <= run.1);
        assert!(blocks.first().is_none_or(|block| block.1 <= next || is_within(*block)), "twice");
        assert!(blocks.iter().skip(1).all(|block| held.contains(block)), "blocks");
    }

    fn judge_all(&mut self, said: &[Packet]) {
        said.iter().for_each(|packet| self.judge(packet));
    }

    /// A segment, most often one that a peer could send. Returns where it begins, too.
    fn segment(&mut self) -> (i64, i64, Packet) {
        let (next, edge, wild) = (self.next(), self.promised, self.below(1 << 31) - (1 << 30));
        let few = self.below(20) - 10;
        let at = self.any([next, next, next, next, next + few, edge + few, next + wild]);
        let some = self.acked + self.below(self.sent - self.acked + 1);
        let ack = self.any([self.acked, self.sent, some, some, some, self.sent + few, some + wild]);
        let len = self.any([0, 0, 1, 7, 500, 1_400, edge - next]).clamp(0, 3_000);
        let mut packet = peer(at as u32, ack as u32);
        packet.payload = (at..at + len).map(|at| byte(0, at.max(0))).collect();
        packet.window = self.any([0, 0, 1, 30, 400, 0x4000, 0xffff]) as u16;
        packet.flags = match self.below(200) {
            0 => RST,
            1 => ACK | RST,
            2 => SYN,
            3 => ACK | SYN,
            4 => 0,
            5 => FIN,
            6..12 => ACK | FIN,
            _ => ACK,
        };
        if self.below(2) == 0 {
            let mut blocks = vec![];
            for _block in 0..=self.below(3) {
                let start = self.acked + self.below(self.sent - self.acked + 1);
                let end = start + self.any([1, 100, 1_000, 3_000, 1 << 30]);
                let end = if self.below(10) > 0 { end.min(self.sent) } else { end };
                blocks.push((start as u32, end as u32));
            }
            packet = packet.report(&blocks);
        } else if self.below(10) == 0 {
            packet.options = (0..4 * self.below(11)).map(|_| self.below(256) as u8).collect();
        }
        (at, ack, packet)
    }

    /// Says a segment, and returns whether the connection goes on.
    fn say(&mut self) -> bool {
        let (at, ack, packet) = self.segment();
        let has = |flag| packet.flags & flag != 0;
        let (next, was_closed) = (self.next(), self.talk.endpoint.is_closed());
        let len = packet.payload.len() as i64 + i64::from(has(SYN)) + i64::from(has(FIN));
        let (first, end) = (at.max(next), (at + len).min(self.promised));
        let is_acceptable = match len {
            0 => at == next || next < at && at < self.promised,
            _ => first < end,
        };
        let is_at_edge = len == 0 && at == self.promised.max(next);
        let is_behind = len == 0 && at < next && next <= at + self.capacity.max(1);
        let held = self.talk.endpoint.receiving.receiver().receiver().queued();
        let said = self.talk.say(&packet);
        let is_reset = has(RST) && at == next && !was_closed;
        let is_probe = self.promised <= next && at == next && len > 0;
        let acknowledges =
            !has(RST | SYN) && has(ACK) && ack <= self.sent && self.acked <= ack + self.greatest;
        let is_taken = (is_acceptable || is_at_edge) && acknowledges;
        let is_heard = (is_probe || is_behind) && acknowledges;
        if (is_taken || is_heard) && self.acked <= ack {
            if self.acked < ack || self.newest <= (at, ack) {
                let window = i64::from(packet.window) << self.scales.1;
                self.edge = ack + window;
                self.newest = (at, ack);
                self.greatest = self.greatest.max(window);
            }
            self.acked = ack;
        }
        self.judge_all(&said);
        assert_eq!(self.talk.endpoint.state == State::Reset, is_reset);
        if !is_taken {
            assert_eq!(
                self.talk.endpoint.receiving.receiver().receiver().queued(),
                held,
                "text that isn't acceptable"
            );
            let is_silent = has(RST) && (!is_acceptable && !is_at_edge || at == next)
                || (is_acceptable || is_at_edge || is_probe || is_behind) && !has(RST | SYN | ACK);
            // What may be an answer itself is answered twice a second.
            let is_limited = !is_heard && (len == 0 || has(SYN));
            let waits = is_limited && self.talk.now < self.answers_from;
            if is_limited && !is_silent && !waits {
                self.answers_from = self.talk.now + Duration::from_millis(500);
            }
            assert_eq!(said.len(), usize::from(!is_silent && !waits), "{packet:?}");
        } else if len > 0 && (at > next || has(FIN)) {
            assert_eq!(said.len(), 1, "out of order, and not acknowledged: {packet:?}");
        }
        !is_reset
    }

    fn read(&mut self) {
        let most = self.any([1, 100, 100_000]) as usize;
        let bytes = self.talk.read(most);
        for (place, found) in bytes.iter().enumerate() {
            assert_eq!(*found, byte(0, self.read + place as i64));
        }
        self.read += bytes.len() as i64;
        let receiver = self.talk.endpoint.receiving.receiver();
        let first = (1u64 << 32) + u64::from(PEER) + 1;
        let end = receiver.end().map(|end| (end - first) as i64);
        let (was_complete, is_complete) = (self.is_complete, receiver.is_complete());
        let moves = !was_complete && is_complete;
        assert!(
            self.end.is_none() || self.end == end || moves,
            "an end stays, or one in order comes"
        );
        assert!(is_complete || !was_complete);
        assert!(end.is_none_or(|end| self.read <= end), "bytes after the end");
        assert!(receiver.has_read_all() || !self.has_read_all);
        (self.end, self.is_complete) = (end, is_complete);
        self.has_read_all = receiver.has_read_all();
    }

    fn write(&mut self) {
        let room = self.talk.endpoint.sending.window() as i64;
        let count = self.any([1, 100, 5_000, 100_000]).min(room);
        let bytes = (self.written..self.written + count).map(|at| byte(1, at)).collect::<Vec<_>>();
        assert_eq!(self.talk.endpoint.sending.write(&bytes) as i64, count);
        self.written += count;
        if self.below(50) == 0 {
            self.talk.endpoint.sending.close();
            self.closed = true;
        }
    }

    fn wait(&mut self) {
        let timer = self.talk.endpoint.sending.expires_at().map(|timer| timer - self.talk.now);
        let rest = timer.map_or(0, |timer| timer.total_micros());
        let micros = self.any([0, 0, 1, 1_000, rest as i64]) as u64;
        let said = self.talk.wait(micros);
        self.judge_all(&said);
        let waits = self.acked < self.written + i64::from(self.closed);
        assert!(self.talk.endpoint.sending.expires_at().is_some() || !waits, "nothing wakes it");
    }
}

#[test]
fn random_segments() {
    for seed in 0..RUNS {
        let mut model = Model::new(seed);
        for _step in 0..STEPS {
            match model.below(8) {
                0 => model.read(),
                1 => model.write(),
                2 | 3 => model.wait(),
                _ => {
                    if !model.say() {
                        break;
                    }
                }
            }
        }
    }
}
