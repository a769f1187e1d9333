//! The path itself: how often it loses, doubles and delays packets, and when its line has sent one.
use std::iter::from_fn;

use net_base::time::{Duration, Instant};

use crate::channel::{Channel, Fates};

/// What arrives, each packet with its moment in microseconds, and nothing before that.
fn arrivals(channel: &mut Channel) -> Vec<(i64, Vec<u8>)> {
    let next = || {
        let at = channel.next()?;
        assert_eq!(channel.arrived(at - Duration::from_micros(1)), None);
        channel.arrived(at).map(|packet| (at.total_micros(), packet))
    };
    from_fn(next).collect()
}

/// Two packets wait for a line of 1 or 1,000 bytes a second.
#[test]
fn a_line_has_a_rate_and_a_queue() {
    for rate in [1, 1_000] {
        let byte = 1_000_000 / i64::from(rate);
        let fates = Fates { rate, queue: 2, latency: 7, ..Fates::default() };
        let mut channel = Channel::new(fates, 1);
        let passed = [(0, 10, 1), (0, 20, 1), (0, 1, 0), (10, 5, 1), (10, 1, 0), (99, 3, 1)];
        for (moment, len, arrives) in passed {
            let (packet, now) = (vec![moment as u8; len], Instant::from_micros(moment * byte));
            assert_eq!(channel.pass(&packet, now), arrives == 1, "{len} bytes at {moment}");
        }
        let sent = [(10, 10, 0), (30, 20, 0), (35, 5, 10), (102, 3, 99)];
        let sent = sent.map(|(at, len, with)| (at * byte + 7, vec![with; len]));
        assert_eq!(arrivals(&mut channel), sent);
        assert_eq!(channel.lost, 2);
    }
}

#[test]
fn fates_are_as_often_as_is_said() {
    for (lost, count) in [(0, 0), (10_000, 100_000)] {
        let mut channel = Channel::new(Fates { lost, ..Fates::default() }, 1);
        (0..100_000).for_each(|_| _ = channel.pass(&[], Instant::ZERO));
        assert_eq!(channel.lost, count);
    }
    let fates = Fates {
        lost: 1_000,
        doubled: 2_000,
        delayed: 5_000,
        longest_delay: 3,
        latency: 10,
        ..Fates::default()
    };
    let of_seed = |seed| {
        let mut channel = Channel::new(fates, seed);
        let passed =
            (0..20_000_u32).filter(|it| channel.pass(&it.to_be_bytes(), Instant::ZERO)).count();
        assert_eq!(channel.lost as usize, 20_000 - passed);
        (passed, arrivals(&mut channel))
    };
    let (passed, mut packets) = of_seed(1);
    assert_ne!(packets, of_seed(2).1);
    // Those of one moment are in order.
    assert!(packets.is_sorted());
    let of = |moment| packets.iter().filter(|it| it.0 == moment).count();
    assert!((17_800..18_200).contains(&passed) && (21_300..21_900).contains(&packets.len()));
    assert!((11..=13).all(|it| (2_500..2_900).contains(&of(it))));
    assert_eq!((10..=13).map(of).sum::<usize>(), packets.len());
    // Each copy has a delay of its own.
    packets.dedup();
    assert!((1_800..2_250).contains(&(packets.len() - passed)));
}

/// What is lost takes no room in the queue.
#[test]
fn a_line_sends_what_is_not_lost() {
    let fates = Fates { lost: 5_000, rate: 1_000, queue: 1_000, ..Fates::default() };
    let mut channel = Channel::new(fates, 1);
    (0..1_000).for_each(|_| _ = channel.pass(&[0], Instant::ZERO));
    let packets = arrivals(&mut channel);
    assert_eq!(packets.last().expect("not all are lost").0, 1_000 * packets.len() as i64);
}
