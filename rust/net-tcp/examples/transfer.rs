//! A file over datagrams that are lost, doubled and late, with both ends and a clock of its own: what is lost is sent
//! again.
use std::collections::VecDeque;

use net_base::rand::Rand;
use net_base::time::{Duration, Instant};
use net_tcp::{
    AckSegment, Acknowledged, Acknowledgement, Expired, ReceivingEnd, SegmentBytes, SendingEnd,
};
use net_tcp::{Announcement, Sack, TimeoutBounds};

/// The most bytes of a datagram.
const SIZE: usize = 100;
const CAPACITY: usize = 4_096;
const BOUNDS: TimeoutBounds = {
    let mut bounds = TimeoutBounds::new();
    bounds.least = Duration::from_millis(50);
    bounds.most = Duration::from_secs(10);
    bounds.tick = Duration::from_micros(1);
    // Each datagram is answered at once.
    bounds.ack_delay = Duration::ZERO;
    bounds
};

#[derive(Clone)]
enum Datagram {
    /// A position and its bytes, and whether the file ends after them.
    Text(u64, Vec<u8>, bool),
    Answer(Acknowledgement),
}

/// What is on the way, the next to arrive first.
struct Path {
    random: Rand,
    datagrams: VecDeque<(Instant, Datagram)>,
}

impl Path {
    /// Sends a datagram. One of ten is lost, one is doubled, and each takes 10 ms and up to 5 ms more.
    fn send(&mut self, now: Instant, datagram: Datagram) {
        for _copy in 0..[0, 2, 1][self.random.below(10).min(2) as usize] {
            let at = now + Duration::from_micros(10_000 + u64::from(self.random.below(5_000)));
            let place = self.datagrams.partition_point(|other| other.0 <= at);
            self.datagrams.insert(place, (at, datagram.clone()));
        }
    }
}

fn main() {
    let mut random = Rand::new(1);
    let file: Vec<u8> = (0..200_000).map(|_| random.rand_u32() as u8).collect();
    let mut path = Path { random, datagrams: VecDeque::new() };
    let mut sending = SendingEnd::<8>::new_at(vec![0; CAPACITY], 0, Duration::from_secs(1), BOUNDS);
    let mut receiving = ReceivingEnd::<8>::new_at(vec![0; CAPACITY], 0, SIZE as u16);
    let peer = Announcement { seq: 0, ack: 0, window: receiving.open(0, 0).into() };
    sending.open(peer, SIZE, Sack::Permitted, Instant::ZERO);
    // How many positions may be in flight.
    let mut window = 10 * SIZE as u64;
    let (mut rest, mut read, mut now) = (&file[..], Vec::<u8>::new(), Instant::ZERO);
    while !sending.is_done() {
        rest = &rest[sending.write(rest)..];
        if rest.is_empty() {
            sending.close();
        }
        let mut begins = sending.expired(now) == (Expired::Overdue { begins: true });
        let is_due = path.datagrams.front().is_some_and(|it| it.0 <= now);
        match is_due.then(|| path.datagrams.pop_front()).flatten() {
            Some((_at, Datagram::Text(pos, bytes, fin))) => {
                // What is refused is sent again.
                let _is_kept = receiving.arrived(pos, &bytes, fin);
                let mut into = [0; CAPACITY];
                let count = receiving.read(&mut into);
                read.extend(&into[..count]);
                path.send(now, Datagram::Answer(receiving.acknowledgement()));
            }
            Some((_at, Datagram::Answer(answer))) => {
                let (ack, room) = (answer.next, u64::from(answer.window));
                // The end of the room never falls, so that it tells which of two answers is older.
                let told = Announcement { seq: ack + room, ack, window: room };
                match sending.acknowledged(told, &answer.blocks, AckSegment::Pure, now) {
                    Acknowledged::Taken { begins: true, .. } => begins = true,
                    Acknowledged::Taken { .. } => window += 20,
                    _ => {}
                }
            }
            None => {}
        }
        if begins {
            window = (window / 2).max(2 * SIZE as u64);
        }
        while let Some(segment) = sending.next_segment(window, now) {
            let SegmentBytes { front, back, fin } = sending.bytes(segment.range());
            path.send(now, Datagram::Text(segment.pos, [front, back].concat(), fin));
        }
        // The next thing that happens: a datagram arrives, or the timer expires.
        let arrival = path.datagrams.front().map(|it| it.0);
        now = arrival.into_iter().chain(sending.expires_at()).min().unwrap_or(now);
    }
    assert!(receiving.receiver().has_read_all() && read == file);
    println!("{} bytes in {now}", read.len());
}
