//! Two endpoints over a path with a round trip of 10 ms that loses, doubles and delays packets.
use std::iter::from_fn;

use net_base::rand::Rand;
use net_base::time::{Duration, Instant};

use crate::channel::{Channel, Fates};
use crate::peer::{HERE, THERE};
use crate::tcp::Endpoint;
use crate::wire::{Ends, Segment, ACK};

const ONE_WAY: Duration = Duration::from_millis(5);
const BEGUN: Instant = Instant::from_micros_const(1_000_000);

struct End<const N: usize> {
    endpoint: Endpoint<N>,
    channel: Channel,
    text: Vec<u8>,
    written: usize,
    /// When it begins to read, or `None` if it has to write all of its text first.
    reads_at: Option<Instant>,
    read: Vec<u8>,
}

impl<const N: usize> End<N> {
    fn new(ends: Ends, listens: bool, path: (Fates, u32), len: usize, capacity: usize) -> Self {
        let mut rand = Rand::new(u64::from(path.1) + 100);
        // One stream's numbers wrap soon, and are far from those of one that listens.
        let initial = (rand.rand_u32() | 0xffff_0000) >> if listens { 2 } else { 0 };
        End {
            endpoint: Endpoint::new(ends, listens, initial, capacity),
            channel: Channel::new(path.0, path.1),
            text: (0..len).map(|_| rand.rand_u32() as u8).collect(),
            written: 0,
            reads_at: Some(BEGUN),
            read: vec![],
        }
    }

    /// Takes what has come, reads, writes and sends. Returns the packets that arrive 5 ms later.
    fn turn(&mut self, packets: &[Vec<u8>], now: Instant) -> Vec<Vec<u8>> {
        let End { endpoint, channel, text, written, reads_at, read } = self;
        let mut sent = 0;
        let mut out = |packet: &[u8]| {
            sent += 1;
            assert!(sent < 10_000, "it never stops");
            channel.pass(packet, now);
        };
        for packet in packets {
            let (from, segment) = Segment::parse(packet, endpoint.ends.here).expect("sound");
            endpoint.take(from, &segment, now).iter().for_each(|packet| out(packet));
        }
        let mut into = [0; 4096];
        let reads = reads_at.map_or(*written == text.len(), |at| at <= now);
        while reads && !endpoint.receiving.receiver().receiver().is_empty() {
            let count = endpoint.receiving.read(&mut into);
            read.extend(&into[..count]);
        }
        *written += endpoint.sending.write(&text[*written..]);
        if *written == text.len() {
            endpoint.sending.close();
        }
        while let Some(packet) = endpoint.next_packet(now) {
            out(&packet);
        }
        from_fn(|| channel.arrived(now)).collect()
    }

    fn next(&self, now: Instant) -> Option<Instant> {
        let reads_at = self.reads_at.filter(|at| *at > now);
        self.endpoint.expires_at().into_iter().chain(self.channel.next()).chain(reads_at).min()
    }
}

/// Sends texts of these lengths both ways. Returns how long that took, in milliseconds, and how many
/// segments were sent again.
fn run<const N: usize>(
    fates: Fates,
    lens: (usize, usize),
    capacity: usize,
    seed: u32,
) -> (u64, u64) {
    let ends = Ends { here: HERE, there: THERE };
    let a = End::<N>::new(ends, false, (fates, seed), lens.0, capacity);
    let ends = Ends { here: THERE, there: ([0; 4], 0) };
    let b = End::<N>::new(ends, true, (fates, seed + 1), lens.1, capacity);
    run_ends(a, b)
}

/// The same of two ends.
fn run_ends<const N: usize>(mut a: End<N>, mut b: End<N>) -> (u64, u64) {
    let mut on_the_way = Vec::<(Instant, bool, Vec<u8>)>::new();
    let (mut now, mut turns) = (BEGUN, 0);
    while !(a.endpoint.is_closed() && b.endpoint.is_closed()) {
        turns += 1;
        let mut packets = [vec![], vec![]];
        on_the_way.retain(|(time, to_b, packet)| {
            if *time <= now {
                packets[usize::from(*to_b)].push(packet.clone());
            }
            *time > now
        });
        let [to_a, to_b] = packets;
        for (to_b, sent) in [(true, a.turn(&to_a, now)), (false, b.turn(&to_b, now))] {
            on_the_way.extend(sent.into_iter().map(|packet| (now + ONE_WAY, to_b, packet)));
        }
        let arrivals = on_the_way.iter().map(|packet| packet.0);
        let Some(next) = arrivals.chain(a.next(now)).chain(b.next(now)).min() else { break };
        now = now.max(next);
        let is_in_time = now - BEGUN < Duration::from_secs(600) && turns < 20_000;
        assert!(is_in_time, "not done: {} and {} bytes read", a.read.len(), b.read.len());
    }
    assert!(a.read == b.text && b.read == a.text, "another text");
    assert!(
        a.endpoint.receiving.receiver().has_read_all()
            && b.endpoint.receiving.receiver().has_read_all()
    );
    let again = a.endpoint.counts.sent_again + b.endpoint.counts.sent_again;
    ((now - BEGUN).total_millis(), again)
}

fn fates(lost: u32, others: u32) -> Fates {
    Fates { lost, doubled: others, delayed: 3 * others, longest_delay: 20_000, ..Fates::default() }
}

#[test]
fn texts_arrive() {
    for seed in 0..5 {
        for (capacity, len) in [(1, 40), (2, 60), (100, 1_000), (4_095, 40_000), (70_000, 300_000)]
        {
            for (lost, others) in [(0, 0), (100, 100), (1_000, 300)] {
                run::<4>(fates(lost, others), (len, len / 2), capacity, seed);
                run::<32>(fates(lost, others), (0, len), capacity, seed);
            }
        }
    }
}

/// Both ends open the connection.
#[test]
fn both_open_at_once() {
    for seed in 0..20 {
        for lost in [0, 2_000] {
            let path = (fates(lost, 300), seed);
            let ends = Ends { here: HERE, there: THERE };
            let a = End::<4>::new(ends, false, path, 3_000, 1_000);
            let ends = Ends { here: THERE, there: HERE };
            run_ends(a, End::new(ends, false, (path.0, seed + 1), 2_000, 1_000));
        }
    }
}

/// Both ends fill the other's window, and read late: one once it has written all, the other one or both from a moment
/// on.
#[test]
fn late_readers() {
    let at = |millis| Some(BEGUN + Duration::from_millis(millis));
    for capacity in [1, 1_000, 4_000, 20_000] {
        for reads_at in
            [(None, at(3_000)), (at(10_000), None), (at(700), at(3_000)), (at(10_000), at(10_000))]
        {
            for lost in [0, 500] {
                let (path, len) = ((fates(lost, 0), 1), 10 * capacity);
                let ends = Ends { here: HERE, there: THERE };
                let mut a = End::<4>::new(ends, false, path, len, capacity);
                let ends = Ends { here: THERE, there: ([0; 4], 0) };
                let mut b = End::<4>::new(ends, true, path, len, capacity);
                (a.reads_at, b.reads_at) = reads_at;
                run_ends(a, b);
            }
        }
    }
}

/// Gives both ends what the other one sends, until neither does. Returns how many packets that were.
fn exchange(ends: &mut [Endpoint<4>; 2], now: Instant) -> usize {
    let mut packets = Vec::<(usize, Vec<u8>)>::new();
    for count in 0..1_000 {
        for (from, end) in ends.iter_mut().enumerate() {
            packets.extend(from_fn(|| end.next_packet(now)).map(|packet| (1 - from, packet)));
        }
        if packets.is_empty() {
            return count;
        }
        let (to, packet) = packets.remove(0);
        let (from, segment) = Segment::parse(&packet, ends[to].ends.here).expect("sound");
        packets.extend(ends[to].take(from, &segment, now).map(|packet| (1 - to, packet)));
    }
    panic!("each answer is answered");
}

/// A third party sends text in the name of an end: then the other one acknowledges what that never sent, and no
/// acknowledgement of it is taken. Each is answered, but twice a second at most.
#[test]
fn forged_text_makes_no_storm() {
    let [here, there] = [(HERE, THERE), (THERE, HERE)].map(|(here, there)| Ends { here, there });
    let mut ends = [Endpoint::new(here, false, 7, 1_000), Endpoint::new(there, true, 9, 1_000)];
    exchange(&mut ends, BEGUN);
    let sent = ends.each_ref().map(|end| end.sending.numbers().sent as u32);
    let [number, acknowledged] = sent;
    let segment = Segment {
        number,
        acknowledged,
        flags: ACK,
        window: 1_000,
        payload: &[7; 10],
        ..Segment::default()
    };
    let forged = segment.packet(&ends[0].ends);
    let (from, segment) = Segment::parse(&forged, THERE).expect("sound");
    assert_eq!(ends[1].take(from, &segment, BEGUN), None);
    let mut now = BEGUN;
    for _half_a_second in 0..10 {
        assert!(ends[0].sending.write(&[1]) + ends[1].sending.write(&[2]) == 2);
        assert!(exchange(&mut ends, now) < 9);
        now += Duration::from_millis(500);
    }
}

#[test]
fn losses_cost_no_timeout() {
    let len = 2 << 20;
    // Nothing is lost: nothing is sent again, and 256 KiB a round trip arrive, from 15 KiB on.
    let (millis, again) = run::<32>(fates(0, 0), (len, 0), 0x4_0000, 1);
    assert!(again == 0 && millis < 260, "{millis} ms, {again} sent again");
    // By the formula of Mathis et al. 1460 bytes a round trip, times 1.22 by the root of the share
    // that is lost: 1.2 s and 2 s. A timeout for each loss would be 3 s and 9 s more.
    for (lost, most) in [(100, 2_400), (300, 4_100)] {
        for seed in 0..4 {
            let (millis, _again) = run::<32>(fates(lost, 0), (len, 0), 0x4_0000, seed);
            assert!(millis < most, "{lost} of 10,000 lost: {millis} ms");
        }
    }
}
