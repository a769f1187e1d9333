//! Sending ends: a timeout of 1 s, of at least 1 s and at most 60 s; the peer delays an acknowledgement by 0.2 s at
//! most. Times are microseconds, and what is seen is counted from the stream's first position.
use net_base::time::{Duration, Instant};
use net_tcp::{AckSegment, Acknowledged, Expired, SendingEnd};
use net_tcp::{Announcement, Sack, TimeoutBounds};
use std::ops::Range;

#[derive(Clone, PartialEq, Debug)]
struct Seen {
    /// The first number that isn't acknowledged.
    first: u64,
    sent: u64,
    window: usize,
    expires_at: Option<i64>,
    timeouts: u64,
    /// The time of a round trip.
    trip: Option<u64>,
    is_recovering: bool,
    is_done: bool,
    /// By how much what was sent is above an acknowledgement's number.
    beyond: u64,
    is_closed: bool,
}

struct Sending<const N: usize> {
    end: SendingEnd<'static, N>,
    begin: u64,
    written: Vec<u8>,
    seen: Seen,
}

impl<const N: usize> Sending<N> {
    fn new(capacity: usize, begin: u64) -> Self {
        let second = Duration::from_secs(1);
        let mut bounds = TimeoutBounds::new();
        [bounds.least, bounds.most] = [second, Duration::from_secs(60)];
        [bounds.ack_delay, bounds.tick] = [Duration::from_millis(200), Duration::from_micros(1)];
        let end = SendingEnd::new_at(vec![0; capacity], begin, second, bounds);
        let seen = Seen {
            first: 0,
            sent: 0,
            window: capacity,
            expires_at: None,
            timeouts: 0,
            trip: None,
            is_recovering: false,
            is_done: false,
            beyond: 0,
            is_closed: false,
        };
        Sending { end, begin, written: vec![], seen }
    }

    fn see(&self) -> Seen {
        let (end, numbers) = (&self.end, self.end.numbers());
        assert_eq!(end.flight_size(), numbers.sent - numbers.first_unacknowledged);
        let queue = end.bytes(numbers.first_unacknowledged..u64::MAX);
        let acknowledged = (numbers.first_unacknowledged - self.begin) as usize;
        assert_eq!(
            [queue.front, queue.back].concat(),
            self.written[acknowledged.min(self.written.len())..]
        );
        Seen {
            first: numbers.first_unacknowledged - self.begin,
            sent: numbers.sent - self.begin,
            window: end.window(),
            expires_at: end.expires_at().map(|it| it.total_micros()),
            timeouts: end.timeouts(),
            trip: end.round_trip().map(|it| it.total_micros()),
            is_recovering: end.is_recovering(),
            is_done: end.is_done(),
            beyond: numbers.sent - end.empty_segment_position(),
            is_closed: queue.fin,
        }
    }

    fn open(&mut self, seq: u64, ack: u64, window: u64, size: usize, reports: bool, now: i64) {
        let sack = if reports { Sack::Permitted } else { Sack::Absent };
        self.end.open(Announcement { seq, ack, window }, size, sack, Instant::from_micros(now));
    }

    fn forget(&mut self, now: i64) {
        self.end.forget(Instant::from_micros(now));
    }

    fn is_opening_due(&mut self, now: i64) -> bool {
        self.end.is_opening_due(Instant::from_micros(now))
    }

    /// The segment that is sent next, in a congestion window.
    fn next_segment(&mut self, window: u64, now: i64) -> String {
        let it = self.end.next_segment(window, Instant::from_micros(now));
        it.map_or(String::new(), |it| {
            format!("{}-{}{}", it.pos, it.end, if it.is_again { " again" } else { "" })
        })
    }

    /// All segments that are sent. An end that never stops is seen too.
    fn sends(&mut self, window: u64, now: i64) -> String {
        let next = || Some(self.next_segment(window, now)).filter(|it| !it.is_empty());
        std::iter::from_fn(next).take(99).collect::<Vec<_>>().join(", ")
    }

    fn write(&mut self, count: usize) -> usize {
        let bytes: Vec<u8> = (0..count).map(|i| (self.written.len() + i * 7) as u8).collect();
        let count = self.end.write(&bytes);
        self.written.extend(&bytes[..count]);
        count
    }

    fn close(&mut self) {
        self.end.close();
    }

    fn take_back(&mut self) -> bool {
        self.end.take_back()
    }

    fn set_nagle_enabled(&mut self, is_enabled: bool) {
        self.end.set_nagle_enabled(is_enabled);
        assert_eq!(self.end.nagle_enabled(), is_enabled);
    }

    /// An acknowledgement's number, what it acknowledges, and its window; and its blocks.
    fn acknowledged(&mut self, now: i64, it: [u64; 3], blocks: &[Range<u64>]) -> String {
        self.segment(now, it, blocks, AckSegment::Pure)
    }

    fn acknowledged_with_data(&mut self, now: i64, it: [u64; 3], blocks: &[Range<u64>]) -> String {
        self.segment(now, it, blocks, AckSegment::WithData)
    }

    fn segment(
        &mut self,
        now: i64,
        [seq, ack, window]: [u64; 3],
        blocks: &[Range<u64>],
        it: AckSegment,
    ) -> String {
        let announced = Announcement { seq, ack, window };
        match self.end.acknowledged(announced, blocks, it, Instant::from_micros(now)) {
            Acknowledged::Refused => "refused".to_string(),
            Acknowledged::Old => "old".to_string(),
            Acknowledged::Taken { new, reports, begins } => {
                let words =
                    [if reports { ", reports" } else { "" }, if begins { ", begins" } else { "" }];
                format!("taken {new}{}", words.concat())
            }
            other => format!("{other:?}"),
        }
    }

    fn expired(&mut self, now: i64) -> &'static str {
        match self.end.expired(Instant::from_micros(now)) {
            Expired::No => "no",
            Expired::Overdue { begins: false } => "overdue",
            Expired::Overdue { begins: true } => "overdue, begins",
            Expired::Probe => "probe",
            Expired::Lost => "lost",
            _ => "another",
        }
    }
}

/// A window that opens byte by byte gives no segments of a byte, but whole ones (RFC 9293, 3.8.6.2.1): lwIP's
/// test_tcp_persist_split. Then what was held back waits for the timer, which gives one segment.
#[test]
fn a_window_that_opens_byte_by_byte() {
    let mut it = Sending::<4>::new(257, 0);
    step!(it.open(0, 0, 60, 20, true, 0));
    step!(it.write(100) => 100, sends(1000, 0) "0-20, 20-40, 40-60";
        sent = 60, window = 157, expires_at = Some(1_000_000));
    step!(it.acknowledged(0, [1, 60, 1], &[]) => "taken 60", sends(1000, 0) "";
        first = 60, window = 217, trip = Some(0));
    step!(it.acknowledged(0, [2, 60, 2], &[]) => "taken 0", sends(1000, 0) "");
    step!(it.acknowledged(0, [3, 60, 3], &[]) => "taken 0", sends(1000, 0) "");
    step!(it.acknowledged(0, [4, 60, 4], &[]) => "taken 0", sends(1000, 0) "");
    step!(it.acknowledged(0, [5, 60, 19], &[]) => "taken 0", sends(1000, 0) "");
    step!(it.acknowledged(0, [6, 60, 20], &[]) => "taken 0", sends(1000, 0) "60-80";
        sent = 80, expires_at = Some(202_000));
    step!(it.acknowledged(0, [7, 80, 5], &[]) => "taken 20", sends(1000, 0) "";
        first = 80, window = 237, expires_at = Some(1_000_000));
    step!(it.expired(999_999) => "no");
    step!(it.expired(1_000_000) => "probe", sends(1, 1_000_000) "80-85";
        sent = 85, expires_at = Some(1_202_000), timeouts = 1);
    step!(it.write(0) => 0, sends(1000, 1_000_000) "");
    step!(it.take_back() => false);
}

/// Half of the greatest window will do, here 15 of 30 and 31, where a segment has 20.
#[test]
fn half_of_the_greatest_window() {
    let mut it = Sending::<4>::new(100, 0);
    step!(it.open(0, 0, 30, 20, true, 0));
    step!(it.write(100) => 100, sends(1000, 0) "0-20"; sent = 20, window = 0, expires_at = Some(1_000_000));
    step!(it.acknowledged(0, [1, 20, 14], &[]) => "taken 20", sends(1000, 0) "";
        first = 20, window = 20, trip = Some(0));
    step!(it.acknowledged(0, [2, 20, 15], &[]) => "taken 0", sends(1000, 0) "20-35";
        sent = 35, expires_at = Some(202_000));
    step!(it.acknowledged(0, [3, 35, 31], &[]) => "taken 15", sends(1000, 0) "35-55";
        first = 35, sent = 55, window = 35);
    step!(it.acknowledged(0, [4, 55, 15], &[]) => "taken 20", sends(1000, 0) "";
        first = 55, window = 55, expires_at = Some(1_000_000));
    step!(it.acknowledged(0, [5, 55, 16], &[]) => "taken 0", sends(1000, 0) "55-71";
        sent = 71, expires_at = Some(202_000));

    let mut it = Sending::<4>::new(100, 0);
    step!(it.open(0, 0, 90, 20, true, 0));
    step!(it.forget(0));
    step!(it.open(5, 0, 30, 20, true, 0));
    step!(it.write(100) => 100, sends(1000, 0) "0-20"; sent = 20, window = 0, expires_at = Some(1_000_000));
    step!(it.acknowledged(0, [5, 20, 14], &[]) => "taken 20";
        first = 20, window = 20, expires_at = None, trip = Some(0));
    step!(it.acknowledged(0, [4, 20, 90], &[]) => "taken 0", sends(1000, 0) ""; expires_at = Some(1_000_000));
    step!(it.acknowledged(0, [5, 20, 15], &[]) => "taken 0", sends(1000, 0) "20-35";
        sent = 35, expires_at = Some(202_000));
}

/// Nagle's rule (RFC 9293, 3.7.4): less than a segment waits while something is in flight, but for the last of a
/// stream.
#[test]
fn nagles_rule() {
    let mut it = Sending::<4>::new(100, 0);
    step!(it.open(0, 0, 60, 20, true, 0));
    step!(it.write(9) => 9, sends(1000, 0) "0-9"; sent = 9, window = 91, expires_at = Some(1_000_000));
    step!(it.write(9) => 9, sends(1000, 0) ""; window = 82);
    step!(it.write(14) => 14, sends(1000, 0) "9-29"; sent = 29, window = 68);
    step!(it.acknowledged(0, [1, 9, 60], &[]) => "taken 9", sends(1000, 0) "";
        first = 9, window = 77, expires_at = Some(202_000), trip = Some(0));
    step!(it.acknowledged(0, [2, 29, 60], &[]) => "taken 20", sends(1000, 0) "29-32";
        first = 29, sent = 32, window = 97);
    step!(it.write(2) => 2, sends(1000, 0) ""; window = 95);
    step!(it.set_nagle_enabled(false) => (), sends(1000, 0) "32-34"; sent = 34, expires_at = Some(2000));
    step!(it.set_nagle_enabled(true));
    step!(it.write(2) => 2, sends(1000, 0) ""; window = 93);
    step!(it.close() => (), sends(1000, 0) "34-37"; sent = 37, window = 0, is_closed = true);
}

/// A window is shut after 10 bytes: one byte asks for it, first after a second, then after two. No answer comes for
/// two round trips, but nothing more may be sent. A byte that isn't taken is sent again once the window opens, and
/// then the rest. An acknowledgement's number is in the window.
#[test]
fn a_shut_window_is_probed() {
    let mut it = Sending::<4>::new(100, 10);
    step!(it.open(0, 10, 10, 10, true, 0));
    step!(it.write(20) => 20, sends(100, 0) "10-20"; sent = 10, window = 80, expires_at = Some(1_000_000));
    step!(it.acknowledged(100_000, [1, 20, 0], &[]) => "taken 10", sends(100, 100_000) "";
        first = 10, window = 90, expires_at = Some(1_100_000), trip = Some(100_000));
    step!(it.acknowledged(200_000, [2, 20, 0], &[]) => "taken 0");
    step!(it.expired(1_099_999) => "no");
    step!(it.expired(1_100_000) => "probe", sends(1, 1_100_000) "20-21";
        sent = 11, expires_at = Some(1_500_000), timeouts = 1, is_recovering = true, beyond = 1);
    step!(it.acknowledged(1_200_000, [2, 20, 0], &[]) => "taken 0");
    step!(it.expired(1_500_000) => "overdue"; expires_at = Some(2_300_000));
    step!(it.expired(2_300_000) => "overdue", sends(100, 2_300_000) ""; expires_at = Some(3_100_000));
    step!(it.expired(3_100_000) => "probe", sends(1, 3_100_000) "20-21 again";
        expires_at = Some(7_100_000), timeouts = 2);
    step!(it.acknowledged(3_200_000, [3, 20, 10], &[]) => "taken 0", sends(100, 3_200_000) "20-21 again";
        beyond = 0);
    step!(it.acknowledged(3_300_000, [4, 21, 10], &[]) => "taken 1", sends(100, 3_300_000) "21-30";
        first = 11, sent = 20, window = 91, expires_at = Some(3_700_000), timeouts = 0, is_recovering = false);

    let mut it = Sending::<4>::new(100, 0);
    step!(it.open(0, 0, 0, 10, true, 0));
    step!(it.write(3) => 3, sends(100, 0) ""; window = 97, expires_at = Some(1_000_000));
    step!(it.expired(1_000_000) => "probe", sends(1, 1_000_000) "0-1";
        sent = 1, expires_at = Some(3_000_000), timeouts = 1, is_recovering = true, beyond = 1);
    step!(it.acknowledged(1_000_000, [1, 1, 10], &[]) => "taken 1";
        first = 1, window = 98, expires_at = None, timeouts = 0, trip = Some(0), is_recovering = false, beyond = 0);
    step!(it.take_back() => false);
}

/// No answer comes for two round trips: the last segment asks for one (RFC 8985, 7.3). A block that answers tells
/// that what was sent before is lost. The round trip is 10 ms.
#[test]
fn the_last_segment_asks_for_an_answer() {
    let mut it = Sending::<4>::new(100, 0);
    step!(it.open(0, 0, 100, 10, true, 0));
    step!(it.write(10) => 10, sends(100, 0) "0-10"; sent = 10, window = 90, expires_at = Some(1_000_000));
    step!(it.acknowledged(10_000, [1, 10, 100], &[]) => "taken 10";
        first = 10, window = 100, expires_at = None, trip = Some(10_000));
    step!(it.write(30) => 30, sends(100, 5_000_000) "10-20, 20-30, 30-40";
        sent = 40, window = 70, expires_at = Some(5_020_000));
    step!(it.expired(5_019_999) => "no");
    step!(it.expired(5_020_000) => "overdue", sends(1, 5_020_000) "30-40 again";
        expires_at = Some(5_060_000));
    step!(it.write(0) => 0, sends(100, 5_020_000) "");
    step!(it.acknowledged(5_030_000, [2, 10, 100], &[30..40]) => "taken 0, reports, begins", sends(100, 5_030_000) "10-20 again, 20-30 again";
        expires_at = Some(5_050_000), is_recovering = true);
    step!(it.acknowledged(5_040_000, [3, 40, 100], &[]) => "taken 30";
        first = 40, window = 100, expires_at = None, is_recovering = false);
}

/// A peer that reports nothing says the same three times: the first segment is lost (RFC 5681, 3.2), and in the
/// recovery the next one at each acknowledgement of something new (RFC 6582). Another window, or a byte, makes it
/// no equal one.
#[test]
fn three_equal_acknowledgements() {
    let mut it = Sending::<4>::new(100, 10);
    step!(it.open(0, 10, 100, 10, false, 0));
    step!(it.write(60) => 60, sends(60, 0) "10-20, 20-30, 30-40, 40-50, 50-60, 60-70";
        sent = 60, window = 40, expires_at = Some(1_000_000));
    step!(it.acknowledged(0, [1, 10, 100], &[]) => "taken 0");
    step!(it.acknowledged_with_data(0, [1, 10, 100], &[]) => "taken 0");
    step!(it.acknowledged(0, [1, 10, 100], &[]) => "taken 0");
    step!(it.acknowledged(0, [1, 10, 99], &[]) => "taken 0");
    step!(it.acknowledged(0, [1, 10, 100], &[]) => "taken 0");
    step!(it.acknowledged(0, [1, 10, 100], &[20..30]) => "taken 0, reports", sends(60, 0) "");

    let mut it = Sending::<4>::new(100, 10);
    step!(it.open(0, 10, 100, 10, false, 0));
    step!(it.write(60) => 60, sends(60, 0) "10-20, 20-30, 30-40, 40-50, 50-60, 60-70";
        sent = 60, window = 40, expires_at = Some(1_000_000));
    step!(it.acknowledged(0, [1, 10, 100], &[]) => "taken 0");
    step!(it.acknowledged(0, [1, 10, 100], &[5..5]) => "taken 0");
    step!(it.acknowledged(0, [1, 10, 100], &[10..20]) => "taken 0");
    step!(it.acknowledged(0, [1, 9, 99], &[]) => "old");
    step!(it.acknowledged(0, [1, 71, 99], &[]) => "refused");
    step!(it.acknowledged(0, [1, 10, 100], &[7..6]) => "taken 0, begins", sends(1, 0) "10-20 again";
        is_recovering = true);
    step!(it.acknowledged(0, [2, 30, 100], &[]) => "taken 20", sends(60, 0) "30-40 again";
        first = 20, window = 60);
}

/// Of six segments the third and fourth were reported, and are acknowledged up to: the peer has dropped them (RFC
/// 2018, 8). What it reported is sent again, and nothing above.
#[test]
fn what_was_reported_is_dropped() {
    let mut it = Sending::<4>::new(100, 10);
    step!(it.open(0, 10, 100, 10, true, 0));
    step!(it.write(60) => 60, sends(60, 0) "10-20, 20-30, 30-40, 40-50, 50-60, 60-70";
        sent = 60, window = 40, expires_at = Some(1_000_000));
    step!(it.acknowledged(0, [1, 10, 100], &[30..50]) => "taken 0, reports");
    step!(it.acknowledged(0, [1, 10, 100], &[30..50]) => "taken 0", sends(60, 0) "");
    step!(it.acknowledged(0, [2, 30, 100], &[]) => "taken 20, begins", sends(60, 0) "30-40 again, 40-50 again";
        first = 20, window = 60, expires_at = Some(2000), trip = Some(0), is_recovering = true);
    step!(it.acknowledged(0, [3, 30, 100], &[60..70]) => "taken 0, reports");
    step!(it.acknowledged(0, [4, 60, 100], &[]) => "taken 30", sends(60, 0) "60-70 again";
        first = 50, window = 90, expires_at = Some(202_000));
    step!(it.acknowledged(0, [5, 70, 100], &[]) => "taken 10";
        first = 60, window = 100, expires_at = None, is_recovering = false);
}

/// All is lost by the timeout, and the first segment is sent again. What arrives then wasn't (RFC 5682): the rest
/// isn't lost. A peer that reports nothing has the rest sent again.
#[test]
fn what_arrives_after_a_timeout() {
    let mut it = Sending::<4>::new(100, 0);
    step!(it.open(0, 0, 100, 10, true, 0));
    step!(it.write(40) => 40, sends(40, 0) "0-10, 10-20, 20-30, 30-40";
        sent = 40, window = 60, expires_at = Some(1_000_000));
    step!(it.expired(1_000_000) => "lost", sends(10, 1_000_000) "0-10 again";
        expires_at = Some(3_000_000), timeouts = 1, is_recovering = true);
    step!(it.acknowledged(1_010_000, [1, 20, 100], &[]) => "taken 20", sends(40, 1_010_000) "";
        first = 20, window = 80, expires_at = Some(3_010_000), timeouts = 0);

    let mut it = Sending::<4>::new(100, 0);
    step!(it.open(0, 0, 100, 10, false, 0));
    step!(it.write(40) => 40, sends(40, 0) "0-10, 10-20, 20-30, 30-40";
        sent = 40, window = 60, expires_at = Some(1_000_000));
    step!(it.expired(1_000_000) => "lost", sends(10, 1_000_000) "0-10 again";
        expires_at = Some(3_000_000), timeouts = 1, is_recovering = true);
    step!(it.acknowledged(1_010_000, [1, 20, 100], &[]) => "taken 20", sends(40, 1_010_000) "20-30 again, 30-40 again";
        first = 20, window = 80, expires_at = Some(3_010_000), timeouts = 0);
}

/// A timed segment that is reported gives its sample: after 20 ms one of 40 ms.
#[test]
fn a_reported_segment_gives_its_sample() {
    let mut it = Sending::<4>::new(100, 0);
    step!(it.open(0, 0, 100, 10, true, 0));
    step!(it.write(40) => 40, sends(100, 0) "0-10, 10-20, 20-30, 30-40";
        sent = 40, window = 60, expires_at = Some(1_000_000));
    step!(it.acknowledged(20_000, [1, 10, 100], &[]) => "taken 10";
        first = 10, window = 70, expires_at = Some(60_000), trip = Some(20_000));
    step!(it.write(20) => 20, sends(100, 30_000) "40-50, 50-60"; sent = 60, window = 50);
    step!(it.acknowledged(70_000, [2, 10, 100], &[40..50]) => "taken 0, reports";
        expires_at = Some(115_000), trip = Some(22_500));
}

/// With a hole that is overdue it is lost, and sent again: no probe for an answer. With none the last segment is,
/// since the window has no room for a new one.
#[test]
fn an_overdue_hole_is_lost() {
    let mut it = Sending::<4>::new(100, 0);
    step!(it.open(0, 0, 50, 10, true, 0));
    step!(it.write(80) => 80; window = 20);
    step!(it.next_segment(100, 0) => "0-10"; sent = 10, expires_at = Some(1_000_000));
    step!(it.acknowledged(10_000, [1, 10, 50], &[]) => "taken 10", sends(100, 10_000) "10-20, 20-30, 30-40, 40-50, 50-60";
        first = 10, sent = 60, window = 30, expires_at = Some(30_000), trip = Some(10_000));
    step!(it.expired(30_000) => "overdue", sends(100, 30_000) "50-60 again"; expires_at = Some(70_000));
    step!(it.acknowledged(31_000, [1, 20, 40], &[30..40]) => "taken 10, reports";
        first = 20, window = 40, expires_at = Some(53_750), trip = Some(11_375));
    step!(it.expired(53_750) => "overdue, begins", sends(100, 53_750) "20-30 again";
        expires_at = Some(99_250), is_recovering = true);
}

/// A window is shut while something is in flight: nothing asks for an answer, then or once it opens by a little.
#[test]
fn a_window_is_shut_while_something_is_in_flight() {
    let mut it = Sending::<4>::new(100, 0);
    step!(it.open(0, 0, 20, 10, true, 0));
    step!(it.write(80) => 80; window = 20);
    step!(it.next_segment(100, 0) => "0-10"; sent = 10, expires_at = Some(1_000_000));
    step!(it.acknowledged(10_000, [1, 10, 20], &[]) => "taken 10", sends(100, 10_000) "10-20, 20-30";
        first = 10, sent = 30, window = 30, expires_at = Some(30_000), trip = Some(10_000));
    step!(it.acknowledged(11_000, [2, 10, 0], &[]) => "taken 0"; beyond = 20);
    step!(it.expired(30_000) => "overdue", sends(100, 30_000) ""; expires_at = Some(70_000));
    step!(it.acknowledged(31_000, [3, 10, 21], &[]) => "taken 0", sends(100, 31_000) ""; beyond = 0);
    step!(it.acknowledged(32_000, [4, 10, 20], &[]) => "taken 0");
    step!(it.expired(70_000) => "overdue", sends(100, 70_000) "20-30 again"; expires_at = Some(150_000));
    step!(it.acknowledged(71_000, [5, 10, 0], &[]) => "taken 0"; beyond = 20);
    step!(it.expired(1_010_000) => "probe"; expires_at = Some(3_010_000), timeouts = 1, is_recovering = true);
}

/// A forged acknowledgement, of what was never sent, and one too far below: nothing changes. An old one says
/// nothing.
#[test]
fn forged_acknowledgements() {
    let mut it = Sending::<4>::new(20, 100);
    step!(it.open(0, 100, 30, 10, true, 0));
    step!(it.write(20) => 20; window = 0);
    step!(it.next_segment(100, 0) => "100-110"; sent = 10, expires_at = Some(1_000_000));
    step!(it.acknowledged(5, [9, 111, 99], &[105..108]) => "refused");
    step!(it.acknowledged(5, [9, 69, 99], &[105..108]) => "refused");
    step!(it.acknowledged(5, [9, 70, 99], &[105..108]) => "old");
    step!(it.acknowledged(5, [1, 110, 5], &[]) => "taken 10";
        first = 10, window = 10, expires_at = None, trip = Some(5));
    step!(it.acknowledged(5, [2, 79, 30], &[]) => "refused");
    step!(it.acknowledged(5, [2, 80, 30], &[]) => "old");
}

/// The first segment is lost, sent again, and comes twice: the loss was none, and from then on not 3, but 12
/// segments above a position tell that it is lost. An old acknowledgement tells the same (RFC 2883, RFC 3708).
#[test]
fn a_loss_that_was_none() {
    let mut it = Sending::<4>::new(100, 0);
    step!(it.open(0, 0, 100, 10, true, 0));
    step!(it.write(90) => 90, sends(90, 0) "0-10, 10-20, 20-30, 30-40, 40-50, 50-60, 60-70, 70-80, 80-90";
        sent = 90, window = 10, expires_at = Some(1_000_000));
    step!(it.acknowledged(0, [1, 10, 100], &[20..50]) => "taken 10, reports, begins", sends(1, 0) "10-20 again";
        first = 10, window = 20, expires_at = Some(2000), trip = Some(0), is_recovering = true);
    step!(it.take_back() => false);
    step!(it.acknowledged(0, [1, 50, 100], &[]) => "taken 40"; first = 50, window = 60);
    step!(it.take_back() => false);
    step!(it.acknowledged(0, [1, 50, 100], &[10..20]) => "taken 0");
    step!(it.take_back() => true; is_recovering = false);
    step!(it.take_back() => false);
    step!(it.acknowledged(0, [1, 50, 100], &[60..90]) => "taken 0, reports");

    let mut it = Sending::<4>::new(100, 0);
    step!(it.open(0, 0, 100, 10, true, 0));
    step!(it.write(90) => 90, sends(90, 0) "0-10, 10-20, 20-30, 30-40, 40-50, 50-60, 60-70, 70-80, 80-90";
        sent = 90, window = 10, expires_at = Some(1_000_000));
    step!(it.acknowledged(0, [1, 10, 100], &[20..50]) => "taken 10, reports, begins", sends(1, 0) "10-20 again";
        first = 10, window = 20, expires_at = Some(2000), trip = Some(0), is_recovering = true);
    step!(it.acknowledged(0, [1, 60, 100], &[]) => "taken 50"; first = 60, window = 70);
    step!(it.acknowledged(0, [1, 50, 100], &[10..20]) => "old");
    step!(it.take_back() => true; is_recovering = false);
}

/// A SYN is sent, and again after a second; then its answer's timeout is the first one.
#[test]
fn a_syn_is_sent_again() {
    let mut it = Sending::<1>::new(8, 0);
    step!(it.open(0, 0, 8, 8, true, 0));
    step!(it.acknowledged(0, [1, 0, 8], &[]) => "taken 0");
    step!(it.forget(0));
    step!(it.is_opening_due(0) => true; expires_at = Some(1_000_000));
    step!(it.is_opening_due(999_999) => false);
    step!(it.is_opening_due(1_000_000) => true; expires_at = Some(3_000_000), timeouts = 1);
    step!(it.open(0, 0, 8, 8, true, 3_100_000); expires_at = None, timeouts = 0);
    step!(it.is_opening_due(3_100_000) => true; expires_at = Some(4_100_000));
    step!(it.acknowledged(3_200_000, [1, 0, 8], &[]) => "taken 0"; expires_at = None);
    step!(it.write(8) => 8; window = 0);
    step!(it.close() => (), sends(9, 3_200_000) "0-8";
        sent = 8, expires_at = Some(4_200_000), is_closed = true);
    step!(it.acknowledged(3_300_000, [2, 8, 1], &[]) => "taken 8", sends(9, 3_300_000) "8-9";
        first = 8, sent = 9, expires_at = Some(3_700_000), trip = Some(100_000));
    step!(it.acknowledged(3_400_000, [3, 9, 0], &[]) => "taken 1";
        first = 9, expires_at = None, is_done = true, is_closed = false);
}

/// A listener sends its SYN again to another peer. What is in flight then has a timer, the first timeout.
#[test]
fn a_listener_sends_its_syn_to_another_peer() {
    let mut it = Sending::<1>::new(8, 0);
    step!(it.open(0, 0, 8, 4, true, 0));
    step!(it.is_opening_due(0) => true; expires_at = Some(1_000_000));
    step!(it.acknowledged(10, [1, 0, 8], &[]) => "taken 0"; expires_at = None);
    step!(it.forget(20));
    step!(it.is_opening_due(30) => true; expires_at = Some(1_000_030));
    step!(it.open(0, 0, 8, 4, true, 40); expires_at = None);
    step!(it.write(8) => 8; window = 0);
    step!(it.next_segment(9, 50) => "0-4"; sent = 4, expires_at = Some(1_000_050));
    step!(it.acknowledged(60, [2, 0, 8], &[]) => "taken 0");
    step!(it.forget(70); expires_at = Some(1_000_070));
    step!(it.open(0, 0, 8, 4, true, 80); expires_at = Some(1_000_080));
    step!(it.expired(1_000_080) => "lost"; expires_at = Some(3_000_080), timeouts = 1, is_recovering = true);
    step!(it.open(0, 0, 0, 4, true, 1_000_090); expires_at = Some(2_000_090), timeouts = 0, beyond = 4);
    step!(it.next_segment(9, 1_000_090) => "");
}
