//! Loss recovery, with the sender's numbers and its scoreboard.
use net_base::scoreboard::{ReportError, Scoreboard};
use net_tcp::{Answer, Before, LossRecovery, Sack, SentNumbers};
use std::ops::Range;

#[derive(Clone, PartialEq, Debug)]
struct Seen {
    is_active: bool,
    /// How many positions may be in flight.
    in_flight: u64,
    /// How many runs above a position tell that it is lost.
    duplicates: usize,
}

struct Sender<const N: usize> {
    recovery: LossRecovery,
    numbers: SentNumbers,
    board: Scoreboard<N>,
    segment_size: usize,
    seen: Seen,
}

impl<const N: usize> Sender<N> {
    fn new(first: u64, segment_size: usize) -> Self {
        let numbers = SentNumbers { first_unacknowledged: first, sent: first };
        let seen = Seen { is_active: false, in_flight: 0, duplicates: 3 };
        let (recovery, board) = (LossRecovery::new(), Scoreboard::empty_at(first));
        Sender { recovery, numbers, board, segment_size, seen }
    }

    fn see(&self) -> Seen {
        Seen {
            is_active: self.recovery.is_active(self.numbers),
            in_flight: self.recovery.in_flight(self.numbers, &self.board),
            duplicates: self.recovery.duplicates(),
        }
    }

    fn send(&mut self, range: Range<u64>) {
        self.recovery.sent(self.numbers, range.clone());
        self.numbers.sent = self.numbers.sent.max(range.end);
    }

    fn report(&mut self, block: Range<u64>) -> Result<(), ReportError> {
        self.board.report(block, self.numbers.sent)
    }

    fn acknowledge(&mut self, next: u64) {
        self.numbers.first_unacknowledged = self.numbers.first_unacknowledged.max(next);
        self.board.acknowledge(next);
    }

    /// An acknowledgement came, before which `first` wasn't acknowledged, and of `unsent` the one that arrived wasn't sent
    /// again.
    fn acknowledged(&mut self, first: u64, unsent: u64, reports: bool, is_equal: bool) -> bool {
        let answer = Answer { before: Before { first, unsent }, reports, is_equal };
        self.recovery.acknowledged(self.numbers, &self.board, self.segment_size, answer)
    }

    fn timed_out(&mut self) {
        self.recovery.timed_out(self.numbers);
    }

    fn probe_sent(&mut self, range: Range<u64>) {
        self.recovery.probe_sent(self.numbers, range);
    }

    fn came_twice(&mut self, range: Range<u64>) {
        self.recovery.came_twice(self.numbers, range);
    }

    fn duplicated(&mut self) {
        self.recovery.duplicated(self.numbers);
    }

    fn opened(&mut self, sack: Sack) {
        self.recovery.opened(sack);
    }

    fn take_back(&mut self) -> bool {
        self.recovery.take_back(self.numbers, &self.board)
    }

    fn reports_dropped(&mut self) -> bool {
        let begins = self.recovery.reports_dropped(self.numbers, &self.board);
        self.board.reset_at(self.numbers.first_unacknowledged);
        begins
    }

    fn fell_silent(&mut self) -> bool {
        self.recovery.fell_silent(self.numbers, &self.board)
    }

    fn unsent(&mut self) -> u64 {
        self.recovery.before(self.numbers, &self.board).unsent
    }

    fn next_probe(&mut self, end: u64) -> Option<Range<u64>> {
        self.recovery.next_probe(self.numbers, &self.board, end, self.segment_size)
    }

    fn next_segment(&mut self, end: u64, window: u64) -> Option<Range<u64>> {
        self.recovery.next_segment(self.numbers, &self.board, end, window, self.segment_size)
    }
}

#[test]
fn equal_acknowledgements_tell_what_has_left() {
    let mut it = Sender::<4>::new(9, 10);
    step!(it.send(9..89); in_flight = 80);
    step!(it.opened(Sack::Absent));
    step!(it.acknowledged(9, 0, false, true) => false; in_flight = 70);
    step!(it.acknowledged(9, 0, true, false) => false; in_flight = 80);
    step!(it.acknowledged(9, 0, false, true) => false; in_flight = 70);
    step!(it.opened(Sack::Permitted); in_flight = 80);
    step!(it.acknowledged(9, 0, false, true) => false);
    step!(it.duplicated(); duplicates = 12);
    step!(it.timed_out(); is_active = true, in_flight = 0, duplicates = 3);
    step!(it.send(9..19); in_flight = 10);

    let mut it = Sender::<4>::new(9, 10);
    step!(it.send(9..89); in_flight = 80);
    step!(it.opened(Sack::Absent));
    step!(it.acknowledged(9, 0, false, true) => false; in_flight = 70);
    step!(it.acknowledged(9, 0, false, true) => false; in_flight = 60);
    step!(it.acknowledge(29); in_flight = 40);
    step!(it.acknowledged(9, 0, false, false) => false; in_flight = 50);

    let mut it = Sender::<4>::new(0, 10);
    step!(it.send(0..80); in_flight = 80);
    step!(it.report(40..70) => Ok(()); in_flight = 50);
    step!(it.acknowledged(0, 0, true, false) => true; is_active = true, in_flight = 10);
    step!(it.send(0..40); in_flight = 50);
    step!(it.send(80..120); in_flight = 90);
    step!(it.report(80..110) => Ok(()); in_flight = 60);
    step!(it.acknowledged(0, 0, true, false) => false; in_flight = 10);
    step!(it.acknowledge(10));
    step!(it.acknowledged(0, 50, false, false) => false; in_flight = 50, duplicates = 12);
    step!(it.probe_sent(10..20));
    step!(it.acknowledge(20); in_flight = 40);
    step!(it.acknowledged(10, 0, false, false) => false; in_flight = 0);

    let mut it = Sender::<4>::new(0, 10);
    step!(it.send(0..80); in_flight = 80);
    step!(it.report(10..20) => Ok(()); in_flight = 70);
    step!(it.report(30..60) => Ok(()); in_flight = 40);
    step!(it.acknowledged(0, 0, true, false) => true; is_active = true, in_flight = 20);
    step!(it.send(0..10); in_flight = 30);
    step!(it.send(20..30); in_flight = 40);
    step!(it.send(80..120); in_flight = 80);
    step!(it.report(80..110) => Ok(()); in_flight = 50);
    step!(it.acknowledged(0, 0, true, false) => false; in_flight = 20);
    step!(it.send(0..10); in_flight = 30);
    step!(it.next_segment(120, 1000) => Some(60..70));

    let mut it = Sender::<4>::new(0, 10);
    step!(it.send(0..40); in_flight = 40);
    step!(it.acknowledged(0, 0, true, true) => false);
    step!(it.report(25..35) => Ok(()); in_flight = 30);
    step!(it.next_probe(40) => Some(35..40));
    step!(it.report(35..40) => Ok(()); in_flight = 25);
    step!(it.next_probe(50) => Some(0..10));
    step!(it.send(40..50); in_flight = 35);
    step!(it.timed_out(); is_active = true, in_flight = 0);
    step!(it.fell_silent() => false);
    step!(it.unsent() => 35);
    step!(it.reports_dropped() => false);
}

/// A recovery was for nothing once all that was sent again came twice (RFC 3708), or what wasn't sent again has
/// come.
#[test]
fn a_recovery_was_for_nothing() {
    let mut it = Sender::<4>::new(0, 10);
    step!(it.send(0..80); in_flight = 80);
    step!(it.report(10..40) => Ok(()); in_flight = 50);
    step!(it.acknowledged(0, 0, true, false) => true; is_active = true, in_flight = 40);
    step!(it.take_back() => false);
    step!(it.send(0..10); in_flight = 50);
    step!(it.take_back() => false);
    step!(it.acknowledge(40); in_flight = 40);
    step!(it.acknowledged(0, 0, false, false) => false);
    step!(it.came_twice(50..60));
    step!(it.take_back() => false);
    step!(it.came_twice(0..10); duplicates = 12);
    step!(it.take_back() => true; is_active = false);
    step!(it.take_back() => false);
    step!(it.came_twice(0..10));
    step!(it.take_back() => false);

    let mut it = Sender::<4>::new(0, 10);
    step!(it.send(0..80); in_flight = 80);
    step!(it.report(10..40) => Ok(()); in_flight = 50);
    step!(it.acknowledged(0, 0, true, false) => true; is_active = true, in_flight = 40);
    step!(it.acknowledge(40));
    step!(it.acknowledged(0, 10, false, false) => false; duplicates = 12);
}

/// One position that has arrived teaches nothing: it may be the byte that asks for a window.
#[test]
fn one_position_teaches_nothing() {
    let mut it = Sender::<4>::new(0, 10);
    step!(it.send(0..80); in_flight = 80);
    step!(it.timed_out(); is_active = true, in_flight = 0);
    step!(it.acknowledge(1));
    step!(it.acknowledged(0, 80, false, false) => false);
    step!(it.acknowledge(3));
    step!(it.acknowledged(1, 79, false, false) => false; in_flight = 77, duplicates = 12);

    let mut it = Sender::<4>::new(0, 10);
    step!(it.send(0..80); in_flight = 80);
    step!(it.report(10..40) => Ok(()); in_flight = 50);
    step!(it.acknowledged(0, 0, true, false) => true; is_active = true, in_flight = 40);
    step!(it.send(0..10); in_flight = 50);
    step!(it.probe_sent(0..10));
    step!(it.came_twice(0..10); duplicates = 12);
    step!(it.take_back() => false);
    step!(it.came_twice(0..10));
}

/// Of segments of 6 bytes. More than 12 bytes that were sent later are reported, which tells that a copy is lost.
/// Of the copy that is sent then they tell nothing: it is in flight.
#[test]
fn a_copy_is_lost() {
    let mut it = Sender::<4>::new(u64::MAX - 118, 6);
    step!(it.send(u64::MAX - 118..u64::MAX - 70); in_flight = 48);
    step!(it.report(u64::MAX - 112..u64::MAX - 94) => Ok(()); in_flight = 30);
    step!(it.acknowledged(u64::MAX - 118, 0, true, false) => true; is_active = true, in_flight = 24);
    step!(it.send(u64::MAX - 118..u64::MAX - 112); in_flight = 30);
    step!(it.send(u64::MAX - 70..u64::MAX - 46); in_flight = 54);
    step!(it.report(u64::MAX - 70..u64::MAX - 57) => Ok(()); in_flight = 41);
    step!(it.acknowledged(u64::MAX - 118, 0, true, false) => false; in_flight = 11);
    step!(it.send(u64::MAX - 118..u64::MAX - 112); in_flight = 17);
    step!(it.acknowledged(u64::MAX - 118, 24, true, true) => false);
}

/// Of segments of 4 bytes. A probe that is due in a recovery tells that all below the highest report is lost. A
/// copy that isn't reported is no later byte, by which another copy would be lost.
#[test]
fn a_probe_in_a_recovery() {
    let mut it = Sender::<32>::new(4_294_967_296, 4);
    step!(it.send(4_294_967_296..4_294_967_328); in_flight = 32);
    step!(it.report(4_294_967_300..4_294_967_312) => Ok(()); in_flight = 20);
    step!(it.acknowledged(4_294_967_296, 0, true, false) => true; is_active = true, in_flight = 16);
    step!(it.send(4_294_967_296..4_294_967_300); in_flight = 20);
    step!(it.send(4_294_967_328..4_294_967_344); in_flight = 36);
    step!(it.report(4_294_967_328..4_294_967_336) => Ok(()); in_flight = 28);
    step!(it.fell_silent() => false; in_flight = 12);
    step!(it.send(4_294_967_312..4_294_967_316); in_flight = 16);
    step!(it.acknowledged(4_294_967_296, 12, false, true) => false);
}

/// A peer that reports nothing acknowledges again all that was sent before a recovery: it answers a copy, which
/// came twice. So no segment has arrived.
#[test]
fn all_is_acknowledged_again() {
    let mut it = Sender::<32>::new(0, 1);
    step!(it.opened(Sack::Absent));
    step!(it.send(0..10); in_flight = 10);
    step!(it.timed_out(); is_active = true, in_flight = 0);
    step!(it.acknowledge(10); is_active = false);
    step!(it.send(10..20); in_flight = 10);
    step!(it.acknowledged(10, 0, false, true) => false; duplicates = 12);
}

/// Before any recovery nothing answers a copy, at position 0 either: the third one tells that the first segment is
/// lost.
#[test]
fn nothing_answers_a_copy_before_a_recovery() {
    let mut it = Sender::<32>::new(0, 10);
    step!(it.opened(Sack::Absent));
    step!(it.send(0..40); in_flight = 40);
    step!(it.acknowledged(0, 0, false, true) => false; in_flight = 30);
    step!(it.acknowledged(0, 0, false, true) => false; in_flight = 20);
    step!(it.acknowledged(0, 0, false, true) => true; is_active = true, in_flight = 0);
    step!(it.next_segment(40, 1000) => Some(0..10));
}
