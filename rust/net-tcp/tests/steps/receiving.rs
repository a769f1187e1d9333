//! Receiving ends. What is seen is counted from the stream's first position.
use net_base::finite::FiniteError;
use net_tcp::ReceivingEnd;
use net_tcp::{Arrival, Segment};

#[derive(Clone, PartialEq, Debug)]
struct Seen {
    /// Whether an acknowledgement is due.
    is_due: bool,
    /// Whether one is wanted.
    is_wanted: bool,
    next: u64,
    queued: usize,
    held: usize,
    end: Option<u64>,
}

struct Receiving<const N: usize> {
    end: ReceivingEnd<'static, N>,
    begin: u64,
    seen: Seen,
}

impl<const N: usize> Receiving<N> {
    fn new(capacity: usize, begin: u64, segment_size: u16) -> Self {
        let end = ReceivingEnd::new_at(vec![0; capacity], begin, segment_size);
        let seen = Seen { is_due: false, is_wanted: true, next: 0, queued: 0, held: 0, end: None };
        Receiving { end, begin, seen }
    }

    fn see(&self) -> Seen {
        let (finite, bytes) = (self.end.receiver(), self.end.receiver().receiver());
        Seen {
            is_due: self.end.is_due(),
            is_wanted: self.end.is_wanted(),
            next: bytes.next() - self.begin,
            queued: bytes.queued(),
            held: bytes.held_count(),
            end: finite.end().map(|end| end - self.begin),
        }
    }

    fn open(&mut self, first: u64, scale: u8) -> u16 {
        self.begin = first;
        self.end.open(first, scale)
    }

    /// A segment with ACK, and nothing else.
    fn classify(&mut self, seq: u64, len: u64) -> Arrival {
        self.end.classify(Segment { seq, len, syn: false, ack: true, rst: false })
    }

    fn arrived(
        &mut self,
        pos: u64,
        count: usize,
        fin: bool,
    ) -> Result<(usize, usize), FiniteError> {
        self.end.arrived(pos, &vec![7; count], fin).map(|it| (it.kept, it.queued))
    }

    fn answer(&mut self) {
        self.end.answer();
    }

    fn announce(&mut self) -> (u64, u16) {
        let it = self.end.announce();
        (it.next - self.begin, it.window)
    }

    /// What is acknowledged, the window, and the blocks.
    fn acknowledgement(&mut self) -> String {
        let (it, begin) = (self.end.acknowledgement(), self.begin);
        let blocks = it.blocks.iter().map(|it| format!(" {}-{}", it.start - begin, it.end - begin));
        format!("{} {}{}", it.next - begin, it.window, blocks.collect::<String>())
    }

    fn read(&mut self, most: usize) -> usize {
        self.end.read(&mut vec![0; most])
    }
}

/// Of segments in order each second one is answered, of others each. With bytes of its own an end announces, and
/// lists none.
#[test]
fn each_second_segment_is_answered() {
    let mut it = Receiving::<1>::new(40, 100, 8);
    step!(it.open(100, 0) => 40; is_wanted = false);
    step!(it.arrived(100, 4, false) => Ok((4, 4)); is_wanted = true, next = 4, queued = 4);
    step!(it.arrived(104, 4, false) => Ok((4, 4)); is_due = true, next = 8, queued = 8);
    step!(it.acknowledgement() => "8 32"; is_due = false, is_wanted = false);
    step!(it.arrived(108, 4, false) => Ok((4, 4)); is_wanted = true, next = 12, queued = 12);
    step!(it.announce() => (12, 28); is_wanted = false);
    step!(it.arrived(116, 4, false) => Ok((4, 0)); is_due = true, is_wanted = true, held = 1);
    step!(it.announce() => (12, 28));
    step!(it.acknowledgement() => "12 28 16-20"; is_due = false, is_wanted = false);
    step!(it.arrived(112, 4, false) => Ok((4, 8));
        is_due = true, is_wanted = true, next = 20, queued = 20, held = 0);
    step!(it.acknowledgement() => "20 20"; is_due = false, is_wanted = false);
    step!(it.arrived(120, 4, false) => Ok((4, 4)); is_wanted = true, next = 24, queued = 24);
    step!(it.answer(); is_due = true);
    step!(it.acknowledgement() => "24 16"; is_due = false, is_wanted = false);
    step!(it.arrived(124, 1, false) => Ok((1, 1)); is_wanted = true, next = 25, queued = 25);
    step!(it.arrived(125, 1, false) => Ok((1, 1)); is_due = true, next = 26, queued = 26);
    step!(it.arrived(126, 1, false) => Ok((1, 1)); next = 27, queued = 27);
    step!(it.acknowledgement() => "27 13"; is_due = false, is_wanted = false);
}

/// What came twice is the first block of the next acknowledgement, and of no other (RFC 2883, 4).
#[test]
fn what_came_twice_is_the_first_block() {
    let mut it = Receiving::<1>::new(40, 100, 8);
    step!(it.open(100, 0) => 40; is_wanted = false);
    step!(it.arrived(100, 4, false) => Ok((4, 4)); is_wanted = true, next = 4, queued = 4);
    step!(it.arrived(102, 4, false) => Ok((2, 2)); is_due = true, next = 6, queued = 6);
    step!(it.announce() => (6, 34));
    step!(it.acknowledgement() => "6 34 2-4"; is_due = false, is_wanted = false);
    step!(it.acknowledgement() => "6 34");
    step!(it.arrived(90, 14, false) => Ok((0, 0)); is_due = true, is_wanted = true);
    step!(it.acknowledgement() => "6 34 0-4"; is_due = false, is_wanted = false);
    step!(it.arrived(100, 1, false) => Ok((0, 0)); is_due = true, is_wanted = true);
    step!(it.arrived(101, 2, false) => Ok((0, 0)));
    step!(it.arrived(106, 1, false) => Ok((1, 1)); next = 7, queued = 7);
    step!(it.acknowledgement() => "7 33 1-3"; is_due = false, is_wanted = false);
    step!(it.arrived(90, 4, false) => Ok((0, 0)); is_due = true, is_wanted = true);
    step!(it.acknowledgement() => "7 33"; is_due = false, is_wanted = false);
    step!(it.arrived(110, 4, false) => Ok((4, 0)); is_due = true, is_wanted = true, held = 1);
    step!(it.arrived(108, 3, false) => Ok((3, 0)));
    step!(it.acknowledgement() => "7 33 10-11 8-14"; is_due = false, is_wanted = false);
    step!(it.acknowledgement() => "7 33 8-14");
    step!(it.arrived(110, 1, false) => Ok((1, 0)); is_due = true, is_wanted = true);
    step!(it.arrived(107, 0, true) => Ok((0, 0)); held = 0, end = Some(7));
    step!(it.acknowledgement() => "8 32"; is_due = false, is_wanted = false);
}

/// The newest run is listed first, then those that were, at most four: one that wasn't is as if it never had been.
/// Another stream knows none of them.
#[test]
fn the_newest_run_is_listed_first() {
    let mut it = Receiving::<32>::new(40, 0, 4);
    step!(it.open(0, 0) => 40; is_wanted = false);
    step!(it.arrived(2, 1, false) => Ok((1, 0)); is_due = true, is_wanted = true, held = 1);
    step!(it.acknowledgement() => "0 40 2-3"; is_due = false, is_wanted = false);
    step!(it.arrived(6, 1, false) => Ok((1, 0)); is_due = true, is_wanted = true, held = 2);
    step!(it.acknowledgement() => "0 40 6-7 2-3"; is_due = false, is_wanted = false);
    step!(it.arrived(4, 1, false) => Ok((1, 0)); is_due = true, is_wanted = true, held = 3);
    step!(it.acknowledgement() => "0 40 4-5 6-7 2-3"; is_due = false, is_wanted = false);
    step!(it.arrived(10, 1, false) => Ok((1, 0)); is_due = true, is_wanted = true, held = 4);
    step!(it.acknowledgement() => "0 40 10-11 4-5 6-7 2-3"; is_due = false, is_wanted = false);
    step!(it.arrived(8, 1, false) => Ok((1, 0)); is_due = true, is_wanted = true, held = 5);
    step!(it.acknowledgement() => "0 40 8-9 10-11 4-5 6-7"; is_due = false, is_wanted = false);
    step!(it.arrived(6, 1, false) => Ok((1, 0)); is_due = true, is_wanted = true);
    step!(it.acknowledgement() => "0 40 6-7 6-7 8-9 10-11"; is_due = false, is_wanted = false);
    step!(it.arrived(0, 2, false) => Ok((2, 3));
        is_due = true, is_wanted = true, next = 3, queued = 3, held = 4);
    step!(it.acknowledgement() => "3 37 6-7 8-9 10-11 4-5"; is_due = false, is_wanted = false);
    step!(it.arrived(12, 1, false) => Ok((1, 0)); is_due = true, is_wanted = true, held = 5);
    step!(it.acknowledgement() => "3 37 12-13 6-7 8-9 10-11"; is_due = false, is_wanted = false);
    step!(it.arrived(14, 1, false) => Ok((1, 0)); is_due = true, is_wanted = true, held = 6);
    step!(it.acknowledgement() => "3 37 14-15 12-13 6-7 8-9"; is_due = false, is_wanted = false);
    step!(it.arrived(7, 1, false) => Ok((1, 0)); is_due = true, is_wanted = true, held = 5);
    step!(it.acknowledgement() => "3 37 6-9 14-15 12-13 4-5"; is_due = false, is_wanted = false);
    step!(it.arrived(0, 1, false) => Ok((0, 0)); is_due = true, is_wanted = true);
    step!(it.open(0, 0) => 40; is_due = false, is_wanted = false, next = 0, queued = 0, held = 0);
    step!(it.arrived(2, 1, false) => Ok((1, 0)); is_due = true, is_wanted = true, held = 1);
    step!(it.arrived(4, 1, false) => Ok((1, 0)); held = 2);
    step!(it.arrived(6, 1, false) => Ok((1, 0)); held = 3);
    step!(it.arrived(8, 1, false) => Ok((1, 0)); held = 4);
    step!(it.acknowledgement() => "0 40 8-9 2-3 4-5 6-7"; is_due = false, is_wanted = false);
}

/// The window's edge moves by half of the capacity, or by a segment, and not by less (RFC 9293, 3.8.6.2.2); once
/// all has come no update is sent.
#[test]
fn the_windows_edge_moves_by_half_of_the_capacity() {
    let mut it = Receiving::<1>::new(12, 0, 5);
    step!(it.open(0, 0) => 12; is_wanted = false);
    step!(it.classify(11, 1) => Arrival::Take);
    step!(it.classify(12, 1) => Arrival::Answer);
    step!(it.arrived(0, 12, false) => Ok((12, 12)); is_wanted = true, next = 12, queued = 12);
    step!(it.acknowledgement() => "12 0"; is_wanted = false);
    step!(it.read(4) => 4; queued = 8);
    step!(it.classify(12, 1) => Arrival::AcknowledgementOnly);
    step!(it.announce() => (12, 0));
    step!(it.read(1) => 1; is_wanted = true, queued = 7);
    step!(it.arrived(0, 0, false) => Ok((0, 0)));
    step!(it.announce() => (12, 5); is_wanted = false);
    step!(it.arrived(12, 5, true) => Ok((5, 5));
        is_due = true, is_wanted = true, next = 17, queued = 12, end = Some(17));
    step!(it.announce() => (18, 0));
    step!(it.acknowledgement() => "18 0"; is_due = false, is_wanted = false);
    step!(it.read(9) => 9; queued = 3);
    step!(it.arrived(0, 0, false) => Ok((0, 0)));
}

/// Windows of a scale: 257 in units of 8 are 32; a SYN's has none.
#[test]
fn windows_of_a_scale() {
    let mut it = Receiving::<1>::new(257, 0, 10);
    step!(it.open(0, 3) => 257; is_wanted = false);
    step!(it.announce() => (0, 32));
    step!(it.arrived(0, 9, false) => Ok((9, 9)); is_wanted = true, next = 9, queued = 9);
    step!(it.acknowledgement() => "9 31"; is_wanted = false);
    step!(it.read(9) => 9; queued = 0);
    step!(it.announce() => (9, 31));
}
