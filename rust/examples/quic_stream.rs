//! A stream of QUIC over packets that are lost, doubled and late: ranges acknowledged by packets, a final size, and flow
//! control of a window that is smaller than the stream. Both sides keep the bytes themselves, begin without room for a
//! range, and make more as they need it.
//!
//! Frames here are Rust values. A QUIC of your own has packets, keys and a congestion window besides.
use std::collections::{BTreeMap, VecDeque};
use std::mem;
use std::ops::Range;

use net_base::finite::{FiniteError, SendRangesOver, StreamRangesOver};
use net_base::rand::Rand;
use net_base::storage::Run;

/// The most bytes of a packet's frame, its header too.
const SIZE: usize = 500;
/// How many bytes the receiving side lets be unread, and how many at first.
const CAPACITY: usize = 8_000;
const BEGIN: usize = 1_000;
/// How many bytes of all streams the receiving side lets be unread.
const MAX_DATA: u64 = 6_000;
/// The most ranges that the receiving side lets wait, and that the sending side remembers. Half as many as frames fit
/// in a window are enough. Without a limit a peer takes memory by tiny frames with gaps (RFC 9000, section 21.7).
const MOST_RUNS: usize = 1_024;
/// How many packets may be in flight.
const WINDOW: usize = 16;
/// How many packets may overtake one before it counts as lost: RFC 9002 has 3, and this path has packets come as they like.
const OVERTAKING: u64 = 8;
/// The probe timeout: after how many ticks without an acknowledgement a packet is sent whatever the window says.
const TIMEOUT: u64 = 50;

/// What a packet has: it is STREAM, or ACK, MAX_STREAM_DATA and MAX_DATA.
#[derive(Clone)]
enum Packet {
    Stream { number: u64, offset: u64, data: Vec<u8>, fin: bool },
    Ack { packets: Vec<u64>, max_stream_data: u64, max_data: u64 },
}

/// Returns how many bytes of a STREAM frame come before its data: type, stream ID, offset and length.
fn header_size(offset: u64) -> usize {
    let varint = |number: u64| 1 << [6, 14, 30].iter().filter(|&&bits| number >> bits > 0).count();
    1 + 1 + varint(offset) + varint(SIZE as u64)
}

/// What is on the way, each with the tick at which it arrives.
struct Path {
    random: Rand,
    packets: VecDeque<(u64, Packet)>,
}

impl Path {
    /// Sends a packet. One of ten is lost, one is doubled, and each takes 10 to 12 ticks.
    fn send(&mut self, now: u64, packet: &Packet) {
        for _copy in 0..[0, 2, 1][self.random.below(10).min(2) as usize] {
            let at = now + 10 + u64::from(self.random.below(3));
            let place = self.packets.partition_point(|other| other.0 <= at);
            self.packets.insert(place, (at, packet.clone()));
        }
    }
}

/// A packet that isn't acknowledged yet.
struct SentPacket {
    range: Range<u64>, // of the stream, in its frame
    is_probed: bool,   // its bytes were offered again for a probe
}

/// The side that sends.
struct SendingHalf<'a> {
    data: &'a [u8],
    stream: SendRangesOver<Vec<Run>>,
    packets: BTreeMap<u64, SentPacket>, // by number
    next_number: u64,
    max_stream_data: u64, // the peer's
    max_data: u64,        // the peer's, for all streams
    charged: u64,         // to it: the new bytes that all streams have sent
    losses: usize,        // how often `lose` was called since `next` last offered nothing lost
    timer_began: u64,
}

impl SendingHalf<'_> {
    /// Sends what the peer's flow control and the window of packets allow.
    fn send(&mut self, path: &mut Path, now: u64) {
        while self.packets.len() < WINDOW && self.send_packet(path, now) {}
    }

    /// Sends a packet with a STREAM frame, unless there is nothing to send.
    fn send_packet(&mut self, path: &mut Path, now: u64) -> bool {
        let sent = self.stream.numbers().sent;
        let last = sent + self.max_data - self.charged; // where MAX_DATA is used up
        let next = self.stream.next(self.max_stream_data.min(last), SIZE);
        if next.as_ref().is_none_or(|range| range.start >= sent) {
            self.losses = 0; // all that was lost is sent again
        }
        let Some(mut range) = next else {
            return false; // all is in flight or acknowledged, or a limit is reached
        };
        let mut fin = self.stream.has_fin(&range);
        let Some(room) = SIZE.checked_sub(header_size(range.start)) else {
            return false; // there is no room for the frame's header
        };
        let full = range.start + room as u64;
        if range.end - u64::from(fin) > full {
            range.end = full; // the rest, and the FIN, come in a later frame
            fin = false;
        }
        if range.is_empty() {
            return false; // there is no room for a byte
        }
        let end = range.end - u64::from(fin); // the FIN's position has no byte
        if range.start >= sent {
            self.charged += end - range.start; // these bytes are new, and the FIN costs nothing
        }
        let data = self.data[range.start as usize..end as usize].to_vec();
        let number = self.next_number;
        path.send(now, &Packet::Stream { number, offset: range.start, data, fin });
        assert!(self.stream.mark(range.clone()), "it was written");
        self.packets.insert(number, SentPacket { range, is_probed: false });
        self.next_number += 1;
        true
    }

    /// Takes an ACK frame. What was sent long before a packet of it is lost (RFC 9002, 6.1.1).
    fn acknowledged(&mut self, numbers: &[u64], now: u64) {
        for number in numbers {
            let Some(packet) = self.packets.remove(number) else { continue };
            self.timer_began = now;
            self.on_acknowledged(packet);
            let in_flight = self.packets.split_off(&(number + 1).saturating_sub(OVERTAKING));
            for lost in mem::replace(&mut self.packets, in_flight).into_values() {
                self.on_lost(lost);
            }
        }
    }

    fn on_acknowledged(&mut self, packet: SentPacket) {
        if packet.range.start > self.stream.numbers().first_unacknowledged {
            self.allow_gap(); // without room `acknowledge` loses the range, which opens a gap
        }
        let reply = self.stream.acknowledge(packet.range.clone()).expect("it was sent");
        if reply.sent_again && self.make_room() {
            // There was no room to remember the range, and now there is.
            self.stream.acknowledge(packet.range).expect("it was sent");
        }
    }

    fn on_lost(&mut self, packet: SentPacket) {
        if !packet.is_probed {
            self.lose(packet.range);
        }
    }

    fn lose(&mut self, range: Range<u64>) {
        self.allow_gap();
        self.losses += 1;
        assert!(self.stream.lose(range), "it was sent");
    }

    /// Makes room for one more gap in what is in flight. Without it other bytes would count as lost, and be sent twice.
    fn allow_gap(&mut self) {
        if self.losses >= self.stream.most_runs() {
            self.make_room();
        }
    }

    /// Makes room for more ranges, and returns whether there may be.
    fn make_room(&mut self) -> bool {
        let most = self.stream.most_runs();
        if most < MOST_RUNS {
            let runs = vec![Run::EMPTY; (2 * most).clamp(8, MOST_RUNS)];
            self.stream.grow_runs(runs.clone(), runs);
        }
        most < MOST_RUNS
    }

    /// Sends a probe: what is due if there is anything, or else the oldest bytes again.
    fn probe(&mut self, path: &mut Path, now: u64) {
        self.timer_began = now;
        while !self.send_packet(path, now) {
            // The oldest packet's bytes are offered again, unless they are acknowledged by now.
            let Some(oldest) = self.packets.values_mut().find(|packet| !packet.is_probed) else {
                return; // send a PING
            };
            oldest.is_probed = true;
            let range = oldest.range.clone();
            self.lose(range);
        }
    }
}

/// The side that receives.
struct ReceivingHalf {
    stream: StreamRangesOver<Vec<Run>>,
    pieces: BTreeMap<u64, Vec<u8>>, // bytes that came, by position
    announced: u64,                 // the last MAX_STREAM_DATA
    highest: u64,                   // end of any frame so far
}

/// The flow control that the receiving sides of all streams share.
struct Credit {
    received: u64, // the sum of `highest` of all streams
    read: u64,     // the bytes that were read of all streams
    max_data: u64, // the last that was announced
}

impl ReceivingHalf {
    /// Takes a STREAM frame, or returns the error with which the connection closes.
    fn receive(
        &mut self,
        credit: &mut Credit,
        offset: u64,
        data: &[u8],
        fin: bool,
    ) -> Result<(), &'static str> {
        let end = offset + data.len() as u64; // below 2^63, as both are varints
        if end > self.announced {
            return Err("FLOW_CONTROL_ERROR");
        }
        if self.stream.end().is_some_and(|known| end > known) || fin && end < self.highest {
            return Err("FINAL_SIZE_ERROR");
        }
        credit.received += end.saturating_sub(self.highest);
        self.highest = self.highest.max(end);
        if credit.received > credit.max_data {
            return Err("FLOW_CONTROL_ERROR");
        }
        loop {
            match self.stream.keep(offset..end, fin) {
                Ok(Some(part)) => {
                    let new = (part.start - offset) as usize..(part.end - offset) as usize;
                    self.store(part.start, &data[new]);
                }
                Ok(None) => return Ok(()), // all that is new is stored
                Err(FiniteError::TooManyHoles) if self.stream.most_runs() < MOST_RUNS => {
                    let runs = vec![Run::EMPTY; (2 * self.stream.most_runs()).clamp(8, MOST_RUNS)];
                    self.stream.grow_runs(runs); // and try again
                }
                Err(FiniteError::OtherEnd) => return Err("FINAL_SIZE_ERROR"),
                Err(_) => return Err("INTERNAL_ERROR"), // more ranges than we let wait
            }
        }
    }

    /// Stores bytes at their position. A peer may send tiny frames without gaps, which `keep` doesn't refuse, so many
    /// pieces become as few as there are ranges.
    fn store(&mut self, position: u64, bytes: &[u8]) {
        self.pieces.insert(position, bytes.to_vec());
        if self.pieces.len() > 2 * MOST_RUNS + 2 {
            for (start, bytes) in mem::take(&mut self.pieces) {
                match self.pieces.last_entry() {
                    Some(mut last) if last.key() + last.get().len() as u64 == start => {
                        last.get_mut().extend(bytes);
                    }
                    _ => _ = self.pieces.insert(start, bytes),
                }
            }
        }
    }

    /// Reads all that has no gap before it.
    fn read(&mut self, credit: &mut Credit) -> Vec<u8> {
        let waiting = self.pieces.split_off(&self.stream.next());
        let read =
            mem::replace(&mut self.pieces, waiting).into_values().collect::<Vec<_>>().concat();
        self.stream.read(read.len());
        credit.read += read.len() as u64;
        read
    }

    /// Returns the MAX_STREAM_DATA and the MAX_DATA to announce now. They never fall.
    fn announce(&mut self, credit: &mut Credit) -> (u64, u64) {
        let end = self.stream.window_end().expect("the capacity is small");
        self.announced = end.min((1 << 62) - 1);
        credit.max_data = credit.read + MAX_DATA;
        (self.announced, credit.max_data)
    }
}

fn main() {
    let mut random = Rand::new(2);
    let file: Vec<u8> = (0..50_000).map(|_| random.rand_u32() as u8).collect();
    let mut path = Path { random, packets: VecDeque::new() };
    let mut receiver = ReceivingHalf {
        stream: StreamRangesOver::over_at(vec![], 0, BEGIN),
        pieces: BTreeMap::new(),
        announced: BEGIN as u64,
        highest: 0,
    };
    let mut credit = Credit { received: 0, read: 0, max_data: MAX_DATA };
    let mut sender = SendingHalf {
        data: &file,
        stream: SendRangesOver::over_at(vec![], vec![], 0),
        packets: BTreeMap::new(),
        next_number: 0,
        max_stream_data: BEGIN as u64,
        max_data: MAX_DATA,
        charged: 0,
        losses: 0,
        timer_began: 0,
    };
    assert_eq!(sender.stream.write(file.len() as u64), file.len() as u64);
    sender.stream.close();
    let (mut read, mut now) = (Vec::<u8>::new(), 0);
    while !sender.stream.is_done() {
        sender.send(&mut path, now);
        now = path.packets.front().map_or(now + TIMEOUT, |next| next.0);
        match path.packets.pop_front().map(|next| next.1) {
            Some(Packet::Stream { number, offset, data, fin }) => {
                receiver
                    .receive(&mut credit, offset, &data, fin)
                    .expect("the peer keeps the rules");
                read.extend(receiver.read(&mut credit));
                // The peer fills the window, so it gets a larger one.
                let stream = &mut receiver.stream;
                if stream.capacity() < CAPACITY.min(read.len()) {
                    stream.grow(2 * stream.capacity());
                }
                let packets = vec![number];
                let (max_stream_data, max_data) = receiver.announce(&mut credit);
                path.send(now, &Packet::Ack { packets, max_stream_data, max_data });
            }
            Some(Packet::Ack { packets, max_stream_data, max_data }) => {
                sender.max_stream_data = sender.max_stream_data.max(max_stream_data);
                sender.max_data = sender.max_data.max(max_data);
                sender.acknowledged(&packets, now);
            }
            None => {}
        }
        if now >= sender.timer_began + TIMEOUT {
            sender.probe(&mut path, now);
        }
    }
    assert!(receiver.stream.has_read_all() && read == file);
    println!("{} bytes by {} packets, in {now} ticks", read.len(), sender.next_number);
    println!(
        "{} bytes of window, {} ranges",
        receiver.stream.capacity(),
        receiver.stream.most_runs()
    );
}
