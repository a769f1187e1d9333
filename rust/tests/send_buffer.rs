//! A `SendBuffer`, and so the `SendRanges` in it, against sets of numbers: what is next, what is acknowledged, in flight
//! and lost, whatever is called; and no stream stalls, however few runs have room.
#![cfg(feature = "alloc")]
// One range is no list of its numbers.
#![allow(clippy::single_range_in_vec_init)]
use net_base::finite::{
    Acknowledged, NotSent, SendBuffer, SendBufferOver, SendRanges, SentNumbers,
};
use net_base::rand::Rand;
use net_base::storage::Run;
use std::collections::{BTreeMap, BTreeSet, VecDeque};
use std::ops::Range;

const RUNS: u64 = if cfg!(target_pointer_width = "64") { 1_000 } else { 40 };

/// A buffer with room for so many bytes and runs.
fn buffer(capacity: u64, runs: usize, first: u64) -> SendBuffer<'static> {
    let runs = vec![Run::EMPTY; runs];
    SendBuffer::new_at(vec![0; capacity as usize], runs.clone(), runs, first)
}

/// What is known of a stream, in sets. Below `first` all is in each.
struct Model {
    first: u64,
    acknowledged: BTreeSet<u64>,
    settled: BTreeSet<u64>,
    sent: u64,
    bytes: u64,
    is_closed: bool,
}

impl Model {
    fn is_open(&self, p: u64) -> bool {
        p >= self.first && !self.acknowledged.contains(&p) && !self.settled.contains(&p)
    }

    /// Where a set begins to have holes.
    fn front(&self, set: &BTreeSet<u64>) -> u64 {
        (self.first..u64::MAX).find(|p| !set.contains(p)).unwrap_or(u64::MAX)
    }

    /// How many runs a set has beyond that.
    fn runs(&self, set: &BTreeSet<u64>) -> usize {
        let front = self.front(set);
        set.iter().filter(|&&p| p > front && !set.contains(&(p - 1))).count()
    }

    fn end(&self) -> u64 {
        self.bytes + u64::from(self.is_closed)
    }

    fn next(&self, limit: u64, size: u64) -> Option<Range<u64>> {
        let top = if self.bytes <= limit { self.end() } else { limit };
        let from = (self.first..top).find(|&p| self.is_open(p))?;
        let top = if from < self.sent { top.min(self.sent) } else { top };
        let end = (from..top).find(|&p| !self.is_open(p)).unwrap_or(top);
        let most = from.saturating_add(size.max(1));
        Some(from..if end <= most || most == self.bytes { end } else { most })
    }

    /// Adds a range, unless it begins beyond the first hole and makes too many runs.
    fn settle(&mut self, range: Range<u64>, room: usize) {
        let mut set = self.settled.clone();
        set.extend(range.start.max(self.first)..range.end);
        if range.start <= self.front(&self.settled) || self.runs(&set) <= room {
            self.settled = set;
        }
    }

    /// Takes a range out, and more where the rest has too many runs. Returns whether it was so.
    fn lose(&mut self, range: Range<u64>, room: usize) -> bool {
        if range.is_empty() {
            return false;
        }
        let (front, was) = (self.front(&self.settled), self.settled.clone());
        self.settled.retain(|p| !range.contains(p));
        if self.runs(&self.settled) <= room {
            return false;
        }
        let start = (self.first..range.start).rev().take_while(|p| was.contains(p)).last();
        let start = start.unwrap_or(range.start);
        let end = (range.end..u64::MAX).find(|p| !was.contains(p)).unwrap_or(u64::MAX);
        if range.start < front || end - range.end <= range.start - start {
            self.settled.retain(|p| !(range.end..end).contains(p));
        } else {
            self.settled.retain(|p| !(start..range.start).contains(p));
        }
        true
    }
}

fn against_sets(mut room_for: usize, seed: u64) -> (u32, u32) {
    let rand = &mut Rand::new(seed);
    let mut capacity = [0, 1, 5, 17, 90][rand.below(5) as usize];
    let first = [0, 100, u64::from(u32::MAX) - 20, u64::MAX - 60][rand.below(4) as usize];
    let mut buffer = buffer(capacity, room_for, first);
    let (acknowledged, settled) = (BTreeSet::new(), BTreeSet::new());
    let mut model =
        Model { first, acknowledged, settled, sent: first, bytes: first, is_closed: false };
    let (mut written, mut forgotten, mut coarser) = (vec![], 0, 0);
    for _ in 0..60 {
        let (low, end) = (model.front(&model.acknowledged), model.end());
        let from = low.saturating_sub(3).saturating_add(rand.below((end - low) as u32 + 5).into());
        let some = from..from.saturating_add(rand.below(9).into());
        let any = [some.clone(), low..some.end, some.start..low][rand.below(3) as usize].clone();
        match rand.below(12) {
            0..=2 => {
                let bytes: Vec<u8> = (0..rand.below(30)).map(|_| rand.below(256) as u8).collect();
                let room = (capacity - (model.bytes - low.min(model.bytes)))
                    .min(u64::MAX - 1 - model.bytes)
                    .min(if model.is_closed { 0 } else { u64::MAX });
                let count = room.min(bytes.len() as u64);
                assert_eq!((buffer.window() as u64, buffer.write(&bytes) as u64), (room, count));
                written.extend_from_slice(&bytes[..count as usize]);
                model.bytes += count;
            }
            3 if rand.below(4) == 0 => {
                buffer.close();
                model.is_closed = true;
            }
            3..=6 => {
                let limit = [u64::MAX, from][rand.below(2) as usize];
                let size = rand.below(9);
                let next = buffer.next(limit, size as usize);
                assert_eq!(next, model.next(limit, size.into()), "{buffer:?}");
                let Some(range) = next else { continue };
                let it = buffer.bytes(range.clone());
                let (start, end) = (range.start - first, range.end.min(model.bytes) - first);
                let bytes = [it.front, it.back].concat();
                assert_eq!(bytes, written[start as usize..end as usize]);
                assert_eq!(it.fin, model.is_closed && range.end == model.end());
                let to = (range.end - u64::from(rand.below(5) == 0)).max(range.start + 1);
                assert!(buffer.mark(range.start..to));
                model.sent = model.sent.max(to);
                // All below is settled or acknowledged.
                model.settled.extend(first..to);
            }
            7 => {
                let is_marked = any.start < any.end && any.end <= end;
                assert_eq!(buffer.mark(any.clone()), is_marked);
                if is_marked {
                    model.sent = model.sent.max(any.end);
                    if (first..any.start).any(|p| model.is_open(p)) {
                        model.settle(any, room_for);
                    } else {
                        model.settled.extend(first..any.end);
                    }
                }
            }
            8 | 9 => {
                let reply = buffer.acknowledge(any.clone());
                if any.end > model.sent {
                    assert_eq!(reply, Err(NotSent));
                } else if any.is_empty() {
                    assert_eq!(reply, Ok(Acknowledged { new: 0, freed: 0, sent_again: false }));
                } else {
                    let mut set = model.acknowledged.clone();
                    set.extend(any.start.max(first)..any.end);
                    if any.start > low && model.runs(&set) > room_for {
                        let again = Acknowledged { new: 0, freed: 0, sent_again: true };
                        assert_eq!(reply, Ok(again));
                        model.lose(any, room_for);
                        forgotten += 1;
                    } else {
                        let new = (set.len() - model.acknowledged.len()) as u64;
                        let freed = model.front(&set) - low;
                        assert_eq!(reply, Ok(Acknowledged { new, freed, sent_again: false }));
                        model.acknowledged = set;
                        model.settle(any, room_for);
                        model.settled.extend(first..model.front(&model.acknowledged));
                    }
                }
            }
            10 if rand.below(8) == 0 => {
                buffer.lose_all();
                model.settled = (first..low).collect();
            }
            10 if rand.below(8) == 0 => {
                let larger = capacity + u64::from(rand.below(9));
                let before = buffer.grow(vec![9; larger as usize].into());
                assert_eq!((before.len() as u64, buffer.capacity() as u64), (capacity, larger));
                capacity = larger;
            }
            10 if rand.below(8) == 0 => {
                let more = room_for + rand.below(3) as usize;
                let runs = vec![Run::EMPTY; more];
                let before = buffer.grow_runs(runs.clone().into(), runs.into());
                assert_eq!((before.0.len(), before.1.len()), (room_for, room_for));
                room_for = more;
                assert_eq!(buffer.most_runs(), room_for);
            }
            _ => {
                assert_eq!(buffer.lose(any.clone()), any.end <= model.sent);
                if any.end <= model.sent {
                    coarser += u32::from(model.lose(any.start.max(low)..any.end, room_for));
                }
            }
        }
        for p in first.saturating_sub(2)..model.end() {
            let is_acknowledged = p < first || model.acknowledged.contains(&p);
            assert_eq!(buffer.is_acknowledged(p), is_acknowledged, "{p} {buffer:?}");
            assert_eq!(buffer.is_open(p), model.is_open(p), "{p} {buffer:?}");
        }
        let in_flight = model.settled.difference(&model.acknowledged);
        assert_eq!(buffer.in_flight(), in_flight.count() as u64, "{buffer:?}");
        let first_unacknowledged = model.front(&model.acknowledged);
        assert_eq!(buffer.numbers(), SentNumbers { first_unacknowledged, sent: model.sent });
        assert_eq!(buffer.numbers_end(), model.end());
        assert_eq!(buffer.is_done(), model.is_closed && first_unacknowledged == model.end());
    }
    // What is in flight is lost or acknowledged, each range in turn: nothing was forgotten.
    buffer.close();
    buffer.lose_all();
    while !buffer.is_done() {
        let mut flight = vec![];
        while let Some(range) = buffer.next(u64::MAX, 3) {
            assert!(buffer.mark(range.clone()));
            flight.push(range);
        }
        assert!(!flight.is_empty(), "{buffer:?}");
        while !flight.is_empty() {
            let range = flight.swap_remove(rand.below(flight.len() as u32) as usize);
            let is_lost = rand.below(3) == 0;
            assert!(!is_lost || buffer.lose(range.clone()));
            assert!(is_lost || buffer.acknowledge(range).is_ok());
        }
    }
    (forgotten, coarser)
}

#[test]
fn whatever_is_called() {
    let sum = |a: (u32, u32), b: (u32, u32)| (a.0 + b.0, a.1 + b.1);
    let [mut none, mut one, mut few, mut many] = [(0, 0); 4];
    for seed in 0..RUNS {
        none = sum(none, against_sets(0, seed));
        one = sum(one, against_sets(1, seed));
        few = sum(few, against_sets(3, seed));
        many = sum(many, against_sets(64, seed));
    }
    assert!(none.0 > 0 && none.1 > 0 && many == (0, 0));
    // One range, and three, are too few in some of a thousand streams.
    assert!(RUNS < 1_000 || one.0 > 0 && one.1 > 0 && few.0 > 0 && few.1 > 0);
}

/// Packets by their numbers, as RFC 9002 has them: what is three below an acknowledged one is lost, and where nothing is
/// answered, all that is in flight. Returns how many packets it took to send so many.
fn packets(runs: usize, count: u64, one_in: u32, window: usize, seed: u64) -> u64 {
    let rand = &mut Rand::new(seed);
    let mut stream = buffer(100 * count, runs, 0);
    assert_eq!(stream.write(&vec![7; 100 * count as usize]) as u64, 100 * count);
    stream.close();
    let (mut path, mut flight, mut number) = (VecDeque::<u64>::new(), BTreeMap::new(), 0);
    loop {
        while flight.len() < window {
            let Some(range) = stream.next(u64::MAX, 100) else { break };
            assert!(stream.mark(range.clone()));
            flight.insert(number, range);
            if rand.below(one_in) > 0 {
                path.push_back(number);
            }
            number += 1;
        }
        if let Some(came) = path.pop_front() {
            if let Some(range) = flight.remove(&came) {
                assert!(stream.acknowledge(range).is_ok());
            }
            let later = flight.split_off(&came.saturating_sub(2));
            for range in std::mem::replace(&mut flight, later).into_values().rev() {
                assert!(stream.lose(range));
            }
        } else if stream.is_done() {
            return number;
        } else {
            assert!(!flight.is_empty(), "it stalls");
            flight.clear();
            stream.lose_all();
        }
    }
}

#[test]
fn no_stream_stalls() {
    for seed in 0..RUNS / 100 {
        let enough = packets(32, 1_000, 10, 128, seed);
        assert_eq!(enough, packets(128, 1_000, 10, 128, seed));
        assert!(packets(16, 1_000, 10, 128, seed) <= enough * 11 / 10);
        for one_in in [3, 10, 50] {
            packets(0, 300, one_in, 64, seed);
            packets(1, 300, one_in, 64, seed);
            packets(4, 300, one_in, 64, seed);
        }
    }
}

/// Ranges that are acknowledged in any order, where one run has room.
#[test]
fn a_range_without_room() {
    let mut stream = buffer(400, 1, 0);
    assert_eq!(stream.write(&[7; 400]), 400);
    for range in [0..100, 100..200, 200..300, 300..400] {
        assert_eq!(stream.next(u64::MAX, 100), Some(range.clone()));
        assert!(stream.mark(range));
    }
    let answers = [100..200, 300..400, 0..100, 200..300].map(|range| stream.acknowledge(range));
    let said = answers.map(|it| it.map(|it| (it.new, it.freed, it.sent_again)));
    let taken = |freed| Ok((100, freed, false));
    assert_eq!(said, [taken(0), Ok((0, 0, true)), taken(200), taken(100)]);
    assert_eq!(stream.next(u64::MAX, 100), Some(300..400));
}

/// A stream of no bytes has an end, and one that begins again has none.
#[test]
fn a_stream_begins_again() {
    let mut empty = SendBufferOver::over_at([0; 8], [Run::EMPTY; 2], [Run::EMPTY; 2], 7);
    assert_eq!(empty.next(u64::MAX, 8), None);
    empty.close();
    assert_eq!((empty.next(6, 8), empty.next(7, 8)), (None, Some(7..8)));
    let text =
        "SendBuffer { numbers: SentNumbers { first_unacknowledged: 7, sent: 7 }, window: 0, .. }";
    assert_eq!(format!("{empty:?}"), text);
    empty.reset_at(1 << 40);
    assert_eq!((empty.numbers().sent, empty.window(), empty.is_closed()), (1 << 40, 8, false));
}

/// What a peer may say of ranges, and what a program may pass, as its page says, and nothing changes.
// Reversed ranges are what is tested.
#[allow(clippy::reversed_empty_ranges)]
#[test]
fn nonsense() {
    let mut ranges = SendRanges::new_at(vec![Run::EMPTY; 2], vec![Run::EMPTY; 2], 100);
    assert!(ranges.write(50) == 50 && ranges.mark(100..140));
    assert!(ranges.acknowledge(110..120).is_ok() && ranges.lose(130..135));
    let was = |ranges: &SendRanges<'_>| {
        let open: Vec<u64> = (90..160).filter(|&p| ranges.is_open(p)).collect();
        let known: Vec<u64> = (90..160).filter(|&p| ranges.is_acknowledged(p)).collect();
        (open, known, ranges.numbers(), ranges.in_flight(), ranges.numbers_end())
    };
    let before = was(&ranges);
    let top = u64::MAX;
    for range in [120..141, 0..141, 140..141, 141..142, 0..top, top - 1..top, 150..top] {
        assert_eq!(ranges.acknowledge(range.clone()), Err(NotSent), "{range:?} was never sent");
        assert!(!ranges.lose(range.clone()), "{range:?} was never sent");
        assert!(range.end <= 150 || !ranges.mark(range.clone()), "{range:?} was never written");
        assert_eq!(was(&ranges), before, "{range:?} was refused");
    }
    for range in [0..0, 100..100, 115..105, 140..100, top..0, top..140, 0..100, 110..120, 50..90] {
        let old = Ok(Acknowledged { new: 0, freed: 0, sent_again: false });
        assert_eq!(ranges.acknowledge(range.clone()), old, "{range:?} has nothing new");
        assert!(ranges.is_open(130) && ranges.lose(range.clone()), "{range:?} has nothing to lose");
        assert_eq!(was(&ranges), before, "{range:?} changes nothing");
    }
    assert!(!ranges.mark(top..0) && !ranges.mark(120..120) && !ranges.mark(0..top));
    assert_eq!((ranges.next(0, 9), ranges.next(131, 9)), (None, Some(130..131)));
    assert_eq!(was(&ranges), before);
}

/// A storage of another length than it has to be is refused.
#[test]
fn storages() {
    use std::panic::{catch_unwind, AssertUnwindSafe};
    let runs = |count: usize| vec![Run::EMPTY; count];
    let refused = |call: &mut dyn FnMut()| catch_unwind(AssertUnwindSafe(call)).is_err();
    assert!(refused(&mut || drop(SendRanges::new(runs(2), runs(3)))));
    assert!(refused(&mut || drop(SendRanges::new_at(runs(2), runs(2), u64::MAX))));
    assert!(refused(&mut || drop(SendBuffer::new(vec![0; 8], runs(3), runs(2)))));
    let mut buffer = buffer(8, 2, 0);
    assert!(buffer.write(b"abcdef") == 6 && buffer.mark(0..6));
    assert!(refused(&mut || drop(buffer.grow(vec![0; 7].into()))));
    assert!(refused(&mut || drop(buffer.grow_runs(runs(1).into(), runs(1).into()))));
    assert!(refused(&mut || drop(buffer.grow_runs(runs(3).into(), runs(4).into()))));
    assert!(refused(&mut || buffer.reset_at(u64::MAX)));
    assert_eq!((buffer.capacity(), buffer.most_runs(), buffer.in_flight()), (8, 2, 6));
    let (bytes, acknowledged, settled) = buffer.into_storages();
    assert_eq!((bytes.len(), acknowledged.len(), settled.len()), (8, 2, 2));
}
