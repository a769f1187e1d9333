//! Retransmission timers, by RFC 6298, section 5: a timeout of 1 s, of at least 1 s and at most 60 s; the peer delays an
//! acknowledgement by 0.2 s at most. Times are microseconds.
use net_base::time::{Duration, Instant};
use net_tcp::{Expiry, RetransmissionTimer, Sack, SentNumbers, TimeoutBounds};
use std::ops::Range;

#[derive(Clone, PartialEq, Debug)]
struct Seen {
    timeout: u64,
    expires_at: Option<i64>,
    timed: Option<u64>,
    /// How many timeouts came in a row.
    timeouts: u64,
}

struct Timer {
    timer: RetransmissionTimer,
    bounds: TimeoutBounds,
    seen: Seen,
}

impl Timer {
    fn new(sack: Sack) -> Self {
        let second = Duration::from_secs(1);
        let mut bounds = TimeoutBounds::new();
        [bounds.least, bounds.most] = [second, Duration::from_secs(60)];
        [bounds.ack_delay, bounds.tick] = [Duration::from_millis(200), Duration::from_micros(1)];
        let seen = Seen { timeout: 1_000_000, expires_at: None, timed: None, timeouts: 0 };
        Timer { timer: RetransmissionTimer::new(second, sack), bounds, seen }
    }

    fn see(&self) -> Seen {
        Seen {
            timeout: self.timer.timeout().total_micros(),
            expires_at: self.timer.expires_at().map(|it| it.total_micros()),
            timed: self.timer.timed().map(|it| it.pos),
            timeouts: self.timer.timeouts(),
        }
    }

    /// The positions of a range are sent, with what isn't acknowledged and what was sent before.
    fn sent(&mut self, range: Range<u64>, first_unacknowledged: u64, sent: u64, now: i64) {
        let numbers = SentNumbers { first_unacknowledged, sent };
        self.timer.sent(self.bounds, range, numbers, Instant::from_micros(now));
    }

    fn acknowledged(&mut self, first_unacknowledged: u64, sent: u64, next: u64, now: i64) {
        let numbers = SentNumbers { first_unacknowledged, sent };
        self.timer.acknowledged(self.bounds, numbers, next, Instant::from_micros(now));
    }

    fn start(&mut self, now: i64) {
        self.timer.start(Instant::from_micros(now));
    }

    fn stop(&mut self) {
        self.timer.stop();
    }

    fn take_sample(&mut self, now: i64) {
        self.timer.take_sample(self.bounds, Instant::from_micros(now));
    }

    fn reported(&mut self, now: i64) {
        self.timer.reported(Instant::from_micros(now));
    }

    fn expire(&mut self, now: i64) -> Option<Expiry> {
        self.timer.expire(self.bounds, Instant::from_micros(now))
    }
}

/// A SACK block reports what is timed: the next one is timed; nothing is sent while a window is shut. What was
/// never sent isn't acknowledged; a peer that reports delays nothing.
#[test]
fn a_block_reports_what_is_timed() {
    let mut it = Timer::new(Sack::Permitted);
    step!(it.sent(1..2, 1, 1, 7); expires_at = Some(1_000_007), timed = Some(1));
    step!(it.take_sample(500_007); timeout = 1_500_000, timed = None);
    step!(it.take_sample(600_007));
    step!(it.sent(2..3, 1, 2, 600_000); timed = Some(2));
    step!(it.stop(); expires_at = None);
    step!(it.sent(9..9, 1, 3, 0));
    step!(it.start(5); expires_at = Some(1_500_005));
    step!(it.start(6));
    step!(it.acknowledged(1, 3, 2, 9); expires_at = Some(1_200_009));
    step!(it.acknowledged(1, 3, 4, 10));
    step!(it.reported(20); expires_at = Some(1_000_020));
}

/// A round trip of 0.1 s gives 0.3 s, which is below the least. Two segments are left: probes after 0.2 s and 0.4 s
/// more; the next one would be after the timeout, which is where it was. One segment alone; the second brings the
/// probe, and the third doesn't. Both are due: the timeout has passed.
#[test]
fn probes_up_to_the_timeout() {
    let mut it = Timer::new(Sack::Permitted);
    step!(it.sent(0..1, 0, 0, 0); expires_at = Some(1_000_000), timed = Some(0));
    step!(it.sent(1..2, 0, 1, 0));
    step!(it.sent(2..3, 0, 2, 0));
    step!(it.sent(1..2, 0, 3, 50_000));
    step!(it.acknowledged(0, 3, 1, 100_000); expires_at = Some(300_000), timed = None);
    step!(it.expire(300_000) => Some(Expiry::Probe); expires_at = Some(700_000));
    step!(it.expire(700_000) => Some(Expiry::Probe); expires_at = Some(1_100_000));
    step!(it.expire(1_099_999) => None);
    step!(it.expire(1_100_000) => Some(Expiry::Timeout);
        timeout = 2_000_000, expires_at = Some(3_100_000), timeouts = 1);
    step!(it.expire(3_100_000) => Some(Expiry::Timeout);
        timeout = 4_000_000, expires_at = Some(7_100_000), timeouts = 2);
    step!(it.acknowledged(1, 3, 2, 7_100_001); expires_at = Some(7_500_001), timeouts = 0);
    step!(it.acknowledged(2, 3, 3, 7_200_000); expires_at = None);
    step!(it.start(7_300_000); expires_at = Some(11_300_000));
    step!(it.stop(); expires_at = None);
    step!(it.sent(3..4, 3, 3, 7_400_000); expires_at = Some(7_800_000), timed = Some(3));
    step!(it.sent(4..5, 3, 4, 7_450_000); expires_at = Some(7_650_000));
    step!(it.sent(5..6, 3, 5, 7_500_000));
    step!(it.expire(12_000_000) => Some(Expiry::Timeout);
        timeout = 8_000_000, expires_at = Some(20_000_000), timed = None, timeouts = 1);
}

/// Round trips of 0.1 s, one each second. The eighth segment's probe is due after 0.2 + 0.2 s, the next one's after
/// 0.2 + 0.05 s. Then one more that isn't late is wanted, here one of 0.25 s, which makes SRTT 0.11875 s. One that
/// is late by a microsecond, of 0.2875 s, makes it begin again: SRTT is 0.139843 s then.
#[test]
fn probes_of_single_segments() {
    let mut it = Timer::new(Sack::Permitted);
    step!(it.sent(0..1, 0, 0, 0); expires_at = Some(1_000_000), timed = Some(0));
    step!(it.acknowledged(0, 1, 1, 100_000); expires_at = None, timed = None);
    for n in 1..8 {
        let now = n as i64 * 1_000_000;
        step!(it.sent(n..n + 1, n, n, now); expires_at = Some(now + 400_000), timed = Some(n));
        step!(it.acknowledged(n, n + 1, n + 1, now + 100_000); expires_at = None, timed = None);
    }
    step!(it.sent(8..9, 8, 8, 8_000_000); expires_at = Some(8_250_000), timed = Some(8));
    step!(it.expire(8_250_000) => Some(Expiry::Probe); expires_at = Some(8_750_000));
    step!(it.sent(8..9, 8, 9, 8_250_000); timed = None);
    step!(it.acknowledged(8, 9, 9, 8_350_000); expires_at = None);
    step!(it.sent(9..10, 9, 9, 9_000_000); expires_at = Some(9_400_000), timed = Some(9));
    step!(it.acknowledged(9, 10, 10, 9_250_000); expires_at = None, timed = None);
    step!(it.sent(10..11, 10, 10, 10_000_000); expires_at = Some(10_287_500), timed = Some(10));
    step!(it.acknowledged(10, 11, 11, 10_287_501); expires_at = None, timed = None);
    step!(it.sent(11..12, 11, 11, 11_000_000); expires_at = Some(11_479_686), timed = Some(11));
}

/// The peer reports no blocks: no probe, and the timeout is where it was.
#[test]
fn a_peer_that_reports_nothing() {
    let mut it = Timer::new(Sack::Absent);
    step!(it.sent(0..1, 0, 0, 0); expires_at = Some(1_000_000), timed = Some(0));
    step!(it.sent(1..2, 0, 1, 0));
    step!(it.sent(2..3, 0, 2, 0));
    step!(it.acknowledged(0, 3, 1, 100_000); expires_at = Some(1_100_000), timed = None);
    step!(it.expire(1_099_999) => None);
    step!(it.expire(1_100_000) => Some(Expiry::Timeout);
        timeout = 2_000_000, expires_at = Some(3_100_000), timeouts = 1);
    step!(it.reported(1_200_000); expires_at = Some(3_200_000), timeouts = 0);
}
