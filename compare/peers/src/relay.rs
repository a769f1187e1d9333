//! A run: two ends, a path between them, and what their programs send and read.
use std::collections::VecDeque;
use std::io;
use std::iter::from_fn;

use net_base::checksum::PartsSum;
use net_base::rand::Rand;
use net_base::time::{Duration, Instant};

use crate::channel::{Channel, Fates};
use crate::ends::{now, End, Kind};
use crate::watch::{head, is_plain, u32_at, Watch, RST};

/// What a path does to packets, beside their fates.
#[derive(Clone, Copy, Default)]
pub struct Path {
    pub fates: Fates,
    /// From when on all packets are lost, and for how long: in milliseconds after the first byte.
    pub cut: Option<(u64, u64)>,
    /// From when and for how long the receiver's end stops: what comes to it waits.
    pub stop: Option<(u64, u64)>,
    /// Whether no SYN offers blocks (SACK).
    pub without_blocks: bool,
    /// Of 10,000 packets to an endpoint how many are followed by one that no end has sent.
    pub forged: u32,
}

impl Path {
    /// Whether packets may come after the last one that an end has sent has come.
    fn comes_late(&self) -> bool {
        self.fates.doubled + self.fates.delayed + self.forged > 0
    }
}

/// What the programs do. The opening end is the first.
#[derive(Clone, Copy)]
pub enum Traffic {
    /// The first sends bytes; the second reads as many at a time, and rests for some microseconds after each time.
    Send { bytes: u64, chunk: usize, rest: u64 },
    /// Both send, and read so.
    Both { bytes: u64, chunk: usize, rest: u64 },
    /// The first sends a request and closes; the second answers then, over what is half closed.
    Closed { bytes: u64 },
    /// The first sends requests of 100 bytes, each answered by 100 bytes after some milliseconds.
    Requests { count: u64, thinks: u64 },
}

#[derive(Clone, Copy)]
pub struct Case {
    pub ends: [Kind; 2],
    pub path: Path,
    pub traffic: Traffic,
    pub seed: u64,
    /// How many seconds it may take.
    pub most: u64,
}

/// What a run was.
pub struct Outcome {
    /// From the first byte till the receiver, or the first end, has read all: `None` if it didn't in time.
    pub seconds: Option<f64>,
    pub watches: [Watch; 2],
    /// How many resets both ends have sent, but for those that answer what comes late to an end that has closed; and
    /// whether both streams have ended.
    pub resets: u64,
    pub is_closed: bool,
    /// How many segments each end refused, and the most runs that it held.
    pub refused: [(u64, usize); 2],
    /// What went wrong: another byte, an end too early.
    pub wrong: Option<String>,
}

const REQUEST: u64 = 100;

/// The byte at a place of a direction's text.
fn byte(seed: u64, at: u64) -> u8 {
    let word = ((seed << 32) | (at / 8)).wrapping_mul(0x9e37_79b9_7f4a_7c15);
    ((word ^ (word >> 29)).wrapping_mul(0xbf58_476d_1ce4_e5b9) >> (at % 8 * 7)) as u8
}

/// A program: what it has to send, and what it has read.
struct Program {
    seed: u64,
    written: u64,
    /// How many bytes it may have written by now, and whether it then closes.
    limit: u64,
    closes: bool,
    is_closed: bool,
    read: u64,
    has_end: bool,
    reads_at: Option<Instant>,
}

impl Program {
    /// Lets it write and read. Returns what is wrong.
    fn turn(&mut self, end: &mut dyn End, other: u64, (chunk, rest): (usize, u64)) -> Result<(), String> {
        while self.written < self.limit {
            let to = self.limit.min(self.written + 0x1_0000);
            let bytes = (self.written..to).map(|at| byte(self.seed, at)).collect::<Vec<_>>();
            let count = end.write(&bytes) as u64;
            self.written += count;
            if count < to - (self.written - count) {
                break;
            }
        }
        if self.closes && !self.is_closed && self.written == self.limit {
            end.close();
            self.is_closed = true;
        }
        let mut into = vec![0; chunk];
        while !self.has_end && self.reads_at.is_none_or(|at| at <= now()) {
            let Some(count) = end.read(&mut into) else { break };
            self.has_end = count == 0;
            if let Some(at) = (0..count).find(|at| into[*at] != byte(other, self.read + *at as u64)) {
                return Err(format!("another byte at {}", self.read + at as u64));
            }
            self.read += count as u64;
            if rest > 0 {
                self.reads_at = Some(now() + Duration::from_micros(rest));
            }
        }
        Ok(())
    }
}

/// Whether it is so long after the first byte was sent.
fn is_within(span: Option<(u64, u64)>, begun: Option<Instant>) -> bool {
    span.zip(begun).is_some_and(|((from, lasts), begun)| {
        let at = (now() - begun).total_millis();
        from <= at && at < from + lasts
    })
}

/// Writes the checksum of the segment in a packet.
fn seal(packet: &mut [u8]) {
    packet[36..38].fill(0);
    let words = PartsSum::new().with(&packet[12..20]).with_word(6).with_word(packet.len() as u16 - 20);
    let sum = words.with(&packet[20..]).checksum();
    packet[36..38].copy_from_slice(&sum.to_be_bytes());
}

/// Overwrites the option by which a SYN offers blocks.
fn hide_blocks(packet: &mut [u8]) {
    let Some(end) = head(packet).filter(|head| head.flags & 2 != 0).map(|head| head.payload) else { return };
    let mut at = 40;
    while at + 1 < end.min(packet.len()) {
        match (packet[at], usize::from(packet[at + 1])) {
            (0, _) => break,
            (1, _) => at += 1,
            (4, _) => packet[at..at + 2].fill(1),
            (_, len) => at += len.max(2),
        }
    }
    seal(packet);
}

/// Makes a packet from one of the connection that no end has sent, and that RFC 5961 has its target answer or drop, or
/// take what does no harm for long. `end` is the number after all that the target has sent: what it has sent, and what
/// hasn't arrived, is never acknowledged.
fn forge(packet: &[u8], end: u32, rand: &mut Rand) -> Vec<u8> {
    // With the timestamps of that, if it has them, as who sees the path knows, or without.
    let has_times = packet.get(40..44) == Some(&[1, 1, 8, 10]) && rand.below(2) == 0;
    let mut forged = packet[..if has_times { 52 } else { 40 }].to_vec();
    let (number, ack, some) = (u32_at(packet, 24), u32_at(packet, 28), rand.below(40_000));
    let wild = rand.rand_u32();
    let mut put = |at: usize, word: u32| forged[at..at + 4].copy_from_slice(&word.to_be_bytes());
    match rand.below(9) {
        // A number that is old, within the window or beyond it.
        0 => put(24, number.wrapping_sub(some)),
        1 => put(24, number.wrapping_add(2 + some)),
        2 => put(24, wild),
        // What is acknowledged is old, or was never sent.
        3 => put(28, ack.wrapping_sub(1 + some)),
        4 => put(28, end.wrapping_add((1 << 24) + some)),
        // Another window, or blocks.
        5 => forged[34..36].copy_from_slice(&[0, wild as u8 & 1]),
        6 => {
            forged.extend([1, 1, 5, 10]);
            forged.extend(ack.wrapping_add(1 + some).to_be_bytes());
            forged.extend(ack.wrapping_add(1 + 2 * some).to_be_bytes());
        }
        // A reset or a SYN in the window. No segment begins there.
        kind => {
            put(24, number.wrapping_add(2));
            forged[33] = if kind == 7 { 4 } else { [2, 18][wild as usize % 2] };
        }
    }
    let len = forged.len() as u16;
    forged[32] = (len as u8 - 20) / 4 * 16;
    forged[2..4].copy_from_slice(&len.to_be_bytes());
    forged[10..12].fill(0);
    let sum = net_base::checksum::checksum(&forged[..20]);
    forged[10..12].copy_from_slice(&sum.to_be_bytes());
    seal(&mut forged);
    forged
}

#[repr(C)]
struct PollDescriptor {
    file: i32,
    events: i16,
    returned: i16,
}
#[repr(C)]
struct Timespec {
    seconds: i64,
    nanoseconds: i64,
}
unsafe extern "C" {
    fn ppoll(files: *mut PollDescriptor, count: u64, time: *const Timespec, mask: *const u8) -> i32;
}
const POLLIN: i16 = 1;

/// Waits for a packet or bytes at an end, at most so long.
fn wait(ends: &[Box<dyn End>; 2], most: Duration) {
    let files = ends.iter().flat_map(|end| end.files());
    let mut files =
        files.map(|file| PollDescriptor { file, events: POLLIN, returned: 0 }).collect::<Vec<_>>();
    let time = Timespec { seconds: 0, nanoseconds: (most.total_micros() * 1_000).min(999_999_999) as i64 };
    // SAFETY: the descriptors are lent for writing, the time for reading.
    unsafe { ppoll(files.as_mut_ptr(), files.len() as u64, &time, std::ptr::null()) };
}

impl Case {
    fn programs(&self) -> [Program; 2] {
        let (limits, closes) = match self.traffic {
            Traffic::Send { bytes, .. } => ([bytes, 0], [true, false]),
            Traffic::Both { bytes, .. } => ([bytes; 2], [true; 2]),
            Traffic::Closed { .. } => ([REQUEST, 0], [true, false]),
            Traffic::Requests { .. } => ([REQUEST, 0], [false; 2]),
        };
        [0, 1].map(|it| Program {
            seed: 2 * self.seed + it as u64,
            written: 0,
            limit: limits[it],
            closes: closes[it],
            is_closed: false,
            read: 0,
            has_end: false,
            reads_at: None,
        })
    }

    /// Lets the programs go on, once they have turned. Returns whether what is measured has ended.
    fn advance(&self, programs: &mut [Program; 2], answers_at: &mut Option<Instant>) -> bool {
        let [first, second] = programs;
        if let Traffic::Requests { count, thinks } = self.traffic {
            if second.read > second.limit && answers_at.is_none() {
                *answers_at = Some(now() + Duration::from_millis(thinks));
            }
            if answers_at.is_some_and(|at| at <= now()) {
                (*answers_at, second.limit) = (None, second.read);
            }
            if first.read == first.limit && first.limit < count * REQUEST {
                first.limit += REQUEST;
            }
            first.closes = first.read == count * REQUEST;
            second.closes = second.has_end;
            return first.closes;
        }
        if let (Traffic::Closed { bytes }, true) = (self.traffic, second.has_end) {
            second.limit = bytes;
        }
        second.closes |= second.has_end;
        second.has_end && (matches!(self.traffic, Traffic::Send { .. }) || first.has_end)
    }

    pub fn run(&self) -> io::Result<Outcome> {
        // The end that listens is there first.
        let second = self.ends[1].start(true, self.seed)?;
        let mut ends = [self.ends[0].start(false, self.seed + 1)?, second];
        let mut rand = Rand::new(self.seed * 7_919 + 13);
        let mut channels = [0, 1].map(|_| Channel::new(self.path.fates, rand.rand_u32()));
        let (mut watches, mut ready) =
            ([Watch::default(), Watch::default()], [VecDeque::new(), VecDeque::new()]);
        let (mut programs, mut answers_at, mut wrong) = (self.programs(), None, None);
        let (mut ended, mut closed, mut resets) = (None, None, 0);
        let chunk = match self.traffic {
            Traffic::Send { chunk, rest, .. } | Traffic::Both { chunk, rest, .. } => (chunk, rest),
            _ => (0x1_0000, 0),
        };
        let begun = now();
        // What comes after both ends have closed is watched for a little while.
        while closed.is_none_or(|at| now() < at + Duration::from_millis(20)) {
            if now() - begun > Duration::from_secs(self.most) {
                break;
            }
            let mut packet = [0; 4096];
            for from in 0..2 {
                let to = 1 - from;
                let is_endpoint = matches!(self.ends[to], Kind::Example(..));
                for _packet in 0..64 {
                    let Some(len) = ends[from].packet(&mut packet) else { break };
                    let (packet, at) = (&mut packet[..len], now());
                    watches[from].sent(packet, at);
                    let is_reset = head(packet).is_some_and(|head| head.flags & RST != 0);
                    resets += u64::from(is_reset && (closed.is_none() || !self.path.comes_late()));
                    if self.path.without_blocks {
                        hide_blocks(packet);
                    }
                    if is_within(self.path.cut, watches[0].begun) {
                        continue;
                    }
                    if channels[from].pass(packet, at) {
                        watches[from].went_on(packet);
                        if is_endpoint && is_plain(packet) && rand.below(10_000) < self.path.forged {
                            let forged = forge(packet, watches[to].end(), &mut rand);
                            channels[from].pass(&forged, at);
                        }
                    }
                }
                ready[to].extend(from_fn(|| channels[from].arrived(now())));
                while !(to == 1 && is_within(self.path.stop, watches[0].begun)) {
                    let Some(packet) = ready[to].pop_front() else { break };
                    if !ends[to].deliver(&packet) {
                        ready[to].push_front(packet);
                        break;
                    }
                }
            }
            for it in 0..2 {
                let (mine, other) = (it, programs[1 - it].seed);
                let turned = programs[mine].turn(&mut *ends[it], other, chunk);
                wrong = wrong.or(turned.err());
            }
            if wrong.is_some() {
                break;
            }
            ended = ended.or(self.advance(&mut programs, &mut answers_at).then(now));
            closed = closed.or(programs.iter().all(|it| it.has_end && it.is_closed).then(now));
            ends.iter_mut().for_each(|end| end.turn());
            let timers = [ends[0].expires_at(), ends[1].expires_at(), channels[0].next(), channels[1].next()];
            let rests = programs.iter().filter(|it| !it.has_end).filter_map(|it| it.reads_at);
            let rests = rests.filter(|at| *at > now());
            let latest = now() + Duration::from_millis(2);
            let next = timers.into_iter().flatten().chain(rests).chain(answers_at).fold(latest, Instant::min);
            let is_busy =
                ready.iter().any(|it| !it.is_empty()) && !is_within(self.path.stop, watches[0].begun);
            if next > now() && !is_busy {
                wait(&ends, next - now());
            }
        }
        for it in [0, 1] {
            let other = &programs[1 - it];
            if programs[it].has_end
                && wrong.is_none()
                && (programs[it].read < other.written || !other.is_closed)
            {
                wrong = Some(format!("{} ended after {} bytes", ["first", "second"][it], programs[it].read));
            }
        }
        let seconds = ended.zip(watches[0].begun).map(|(at, from)| (at - from).total_micros() as f64 / 1e6);
        let refused = [ends[0].refused(), ends[1].refused()];
        Ok(Outcome { seconds, watches, resets, is_closed: closed.is_some(), refused, wrong })
    }
}
