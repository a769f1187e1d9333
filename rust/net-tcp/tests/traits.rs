//! What the public types' traits give: defaults and texts; and a caller's own record. Values are worked by hand.
use std::fmt::Debug;

use net_base::scoreboard::Scoreboard;
use net_base::time::{Duration, Instant};
use net_tcp::{
    AdvertisedWindow, Announcement, Answer, Arrival, Before, LossRecovery, PeerWindow,
    ReceivingEndOver, Reported, RetransmissionTimeout, RetransmissionTimer, RttEstimate, Sack,
    Segment, SendingEndOver, SentNumbers, TimeoutBounds, Transmission,
};

fn debug(value: impl Debug) -> String {
    format!("{value:?}")
}

#[test]
fn texts() {
    assert_eq!(debug(AdvertisedWindow::new(9)), "AdvertisedWindow { edge: 9 }");
    let it = Announcement { seq: 1, ack: 2, window: 3 };
    assert_eq!(debug(PeerWindow::of(it)), "PeerWindow { edge: 5, seq: 1, ack: 2 }");
    let segment = Segment { seq: 1, len: 2, syn: true, ack: false, rst: true };
    let text = "Segment { seq: 1, len: 2, syn: true, ack: false, rst: true }";
    assert_eq!(debug(segment), text);
    assert_eq!(debug(Arrival::AcknowledgementOnly), "AcknowledgementOnly");
    assert_eq!(
        debug(RttEstimate::first(Duration::from_micros(4))),
        "RttEstimate { srtt_8: 32, rttvar_4: 8 }"
    );
    assert_eq!(
        debug(RetransmissionTimeout::new(Duration::from_micros(5))),
        "RetransmissionTimeout { estimate: None, timeout: Duration { micros: 5 } }"
    );
    assert_eq!(debug(Transmission::Once(Instant::ZERO)), "Once(Instant { micros: 0 })");
    assert_eq!(
        debug(ReceivingEndOver::<_, 2>::over_at([0; 4], 7, 2)),
        "ReceivingEnd { receiver: FiniteReceiver { next: 7, len: 0, window: 4, held: [], end: None }, .. }"
    );
}

#[test]
fn constants() {
    assert_eq!(net_tcp::MAX_SCALE, 14);
}

/// An array is a storage.
#[test]
fn arrays() {
    let bounds = TimeoutBounds::default();
    let mut end = SendingEndOver::<_, 2>::over_at([0; 4], 7, Duration::from_secs(1), bounds);
    assert_eq!((end.write(b"abcde"), end.numbers().flight_size()), (4, 0));
    let mut end = ReceivingEndOver::<_, 2>::over_at([0; 4], 7, 2);
    assert!(end.arrived(7, b"ab", true).is_ok() && end.receiver().acknowledged() == 10);
}

/// No conversion cuts the size of a segment.
#[test]
#[cfg(feature = "alloc")]
fn nothing_is_cut() {
    let mut end = net_tcp::ReceivingEnd::<4>::new_at(vec![0; 60_000], 0, 9_000);
    assert!(end.arrived(0, &[7; 50_000], false).is_ok());
    end.acknowledgement();
    assert_eq!((end.read(&mut [0; 8_999]), end.is_wanted()), (8_999, false));
    assert_eq!((end.read(&mut [0; 1]), end.is_wanted()), (1, true));
}

#[test]
fn machines() {
    assert_eq!(AdvertisedWindow::default(), AdvertisedWindow::new(0));
    assert_ne!(PeerWindow::of(Announcement { seq: 1, ack: 2, window: 3 }), PeerWindow::default());
    assert_eq!(
        (PeerWindow::default(), LossRecovery::default()),
        (PeerWindow::new(), LossRecovery::new())
    );
    assert_ne!(Transmission::Once(Instant::ZERO), Transmission::Repeated);
    assert_eq!(
        RetransmissionTimeout::default(),
        RetransmissionTimeout::new(Duration::from_secs(1))
    );
    let bounds = TimeoutBounds::default();
    assert_eq!(
        (bounds.least, bounds.most, bounds.tick, bounds.ack_delay),
        (
            Duration::from_secs(1),
            Duration::from_secs(60),
            Duration::from_millis(1),
            Duration::from_millis(200)
        )
    );
    let mut timeout = RetransmissionTimeout::default();
    timeout.acknowledged(bounds, Transmission::Repeated, Instant::ZERO);
    assert_eq!(timeout, RetransmissionTimeout::default());
    assert_eq!(
        RetransmissionTimer::default(),
        RetransmissionTimer::new(Duration::from_secs(1), Sack::Absent)
    );
}

/// A caller's own record of what was reported.
struct Record(Scoreboard<2>);

impl Reported for Record {
    fn contains(&self, pos: u64) -> bool {
        Reported::contains(&self.0, pos)
    }

    fn highest_reported(&self) -> u64 {
        Reported::highest_reported(&self.0)
    }

    fn missing_between(&self, start: u64, end: u64) -> u64 {
        Reported::missing_between(&self.0, start, end)
    }

    fn next_hole(&self, pos: u64, limit: u64) -> Option<(u64, u64)> {
        Reported::next_hole(&self.0, pos, limit)
    }

    fn lost_below(&self, duplicates: usize, segment_size: usize) -> u64 {
        Reported::lost_below(&self.0, duplicates, segment_size)
    }
}

/// A recovery reads a record of the caller's as it reads a scoreboard. Of 60 positions in segments of 10 the last 40 are
/// reported, more than two segments, so what is below them is lost (RFC 6675, IsLost).
#[test]
fn recovery_over_a_record_of_the_callers() {
    let mut record = Record(Scoreboard::empty());
    assert_eq!(record.0.report(20..60, 60), Ok(()));
    assert_eq!(
        (record.contains(19), record.contains(20), record.highest_reported()),
        (false, true, 60)
    );
    assert_eq!((record.missing_between(10, 30), record.next_hole(0, 60)), (10, Some((0, 20))));
    assert_eq!(record.lost_below(3, 10), 20);
    let numbers = SentNumbers { first_unacknowledged: 0, sent: 60 };
    let (mut recovery, before) = (LossRecovery::new(), Before { first: 0, unsent: 0 });
    let answer = Answer { before, reports: true, is_equal: true };
    assert!(recovery.acknowledged(numbers, &record, 10, answer));
    assert_eq!(recovery.next_segment(numbers, &record, 60, 100, 10), Some(0..10));
    recovery.sent(numbers, 0..10);
    assert_eq!(recovery.next_segment(numbers, &record, 60, 100, 10), Some(10..20));
}

/// None is after the last one.
#[test]
fn moments_of_timers() {
    let mut timer = RetransmissionTimer::new(Duration::from_micros(7), Sack::Permitted);
    assert_eq!((timer.expires_at(), timer.timeout()), (None, Duration::from_micros(7)));
    timer.start(Instant::from_micros(-5));
    assert_eq!(timer.expires_at(), Some(Instant::from_micros(2)));
    timer.stop();
    timer.start(Instant::from_micros(i64::MAX));
    assert_eq!(timer.expires_at(), Some(Instant::from_micros(i64::MAX)));
    // After a sample of 800 ms and one of 400 ms: 750 ms, and four times 400 ms.
    let [first, second, timeout] = [800, 400, 2_350].map(Duration::from_millis);
    let estimate = RttEstimate::first(first).with_sample(second);
    assert_eq!((estimate.timeout(TimeoutBounds::new()), timer.rtt()), (timeout, None));
}
