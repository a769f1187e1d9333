//! Ranges of a stream are the set of the positions that have arrived, and what was read of them.
use crate::assembler::Runs;
use crate::draw::Draw;
use crate::grows;
use crate::support::message;
use net_base::finite::{FiniteError, StreamRanges, StreamRangesOver};
use net_base::storage::{Run, Storage};
use std::collections::BTreeSet;
use std::ops::Range;

struct Model {
    capacity: usize,
    /// How many runs are held at most.
    most: usize,
    unread: u64,
    arrived: BTreeSet<u64>,
    end: Option<u64>,
}

impl Model {
    fn new(capacity: usize, most: usize, first: u64) -> Self {
        Model { capacity, most, unread: first, arrived: BTreeSet::new(), end: None }
    }

    fn next(&self) -> u64 {
        (self.unread..).find(|pos| !self.arrived.contains(pos)).unwrap()
    }

    /// The first position that can't arrive.
    fn limit(&self) -> u64 {
        self.unread.saturating_add(self.capacity as u64)
    }

    fn held(&self) -> Runs {
        let mut runs = Runs::new();
        for &pos in self.arrived.range(self.next()..) {
            match runs.last_mut() {
                Some(run) if run.1 == pos => run.1 += 1,
                _ => runs.push((pos, pos + 1)),
            }
        }
        runs
    }

    fn can_end(&self, pos: u64) -> bool {
        match self.end {
            Some(end) => pos == end,
            None => pos < u64::MAX && self.next() <= pos && self.arrived.range(pos..).count() == 0,
        }
    }

    fn keep(&mut self, range: Range<u64>, fin: bool) -> Result<Option<Range<u64>>, FiniteError> {
        if fin && !self.can_end(range.end) {
            return Err(FiniteError::OtherEnd);
        }
        let (next, limit) = (self.next(), self.limit());
        let top = limit.min(self.end.unwrap_or(u64::MAX - 1));
        let is_new = |pos: &u64| range.contains(pos) && !self.arrived.contains(pos);
        let mut part = None;
        if let Some(start) = (next..top).find(is_new) {
            let end = (start..top).find(|pos| !is_new(pos)).unwrap_or(top);
            let old = self.arrived.clone();
            self.arrived.extend(start..end);
            if start != next && self.held().len() > self.most {
                self.arrived = old;
                return Err(FiniteError::TooManyHoles);
            }
            part = Some(start..end);
        }
        if fin && range.end <= limit {
            self.end = Some(range.end);
        }
        Ok(part)
    }
}

pub fn play(draw: &mut Draw) {
    let (capacity, first) = (draw.of_these(&[0, 1, 4, 16]), draw.first());
    let mut runs = vec![Run { start: 3, end: 9 }; draw.below(4) as usize];
    let mut more = [5, 0, 2, 1].map(|count| vec![Run::EMPTY; count]).to_vec();
    draw.call(format_args!("{} runs, from {first}, {capacity}", runs.len()));
    match draw.below(2) {
        #[cfg(feature = "alloc")]
        0 => play_over(draw, StreamRangesOver::over_at(runs, first, capacity), more, first),
        _ => play_over(
            draw,
            StreamRanges::new_at(&mut runs[..], first, capacity),
            more.iter_mut().map(|it| it.as_mut_slice().into()).collect(),
            first,
        ),
    }
}

fn play_over<R: Storage<Run>>(
    draw: &mut Draw,
    mut it: StreamRangesOver<R>,
    mut more: Vec<R>,
    first: u64,
) {
    let mut model = Model::new(it.capacity(), it.most_runs(), first);
    for _ in 0..40 {
        let start = draw.near(model.next(), model.capacity as u64 + 3);
        let (size, kind, fin) = (draw.size(model.capacity), draw.below(10), draw.once_in(5));
        let end = if draw.once_in(9) { draw.number() } else { start.saturating_add(size as u64) };
        draw.call(format_args!("{kind}: {start}..{end} {fin}, {size}"));
        let queued = (model.next() - model.unread) as usize;
        match kind {
            0..=5 => {
                // As a program calls it, or once alone.
                for call in 0..if draw.once_in(2) { 99 } else { 1 } {
                    let part = model.keep(start..end, fin);
                    assert!(call == 0 || part.is_ok(), "an error between the parts of a segment");
                    assert_eq!(it.keep(start..end, fin), part);
                    let Ok(Some(_)) = part else { break };
                }
            }
            6 | 7 if size <= queued => {
                it.read(size);
                model.unread += size as u64;
            }
            6 => assert_eq!(message(|| it.read(size)), "more bytes than are queued"),
            8 if draw.once_in(2) => {
                let larger = draw.below(40) as usize;
                if larger < model.capacity {
                    assert_eq!(message(|| it.grow(larger)), "a smaller capacity");
                } else {
                    it.grow(larger);
                    model.capacity = larger;
                }
            }
            8 => _ = grows(&mut more, &mut model.most, "fewer runs", |runs| it.grow_runs(runs)),
            9 if draw.once_in(8) => {
                let first = draw.first();
                it.reset_at(first);
                model = Model::new(model.capacity, model.most, first);
            }
            _ => {}
        }
        let (next, queued) = (model.next(), (model.next() - model.unread) as usize);
        assert_eq!((it.next(), it.first_unread(), it.queued()), (next, model.unread, queued));
        assert_eq!((it.capacity(), it.most_runs()), (model.capacity, model.most));
        assert_eq!(it.window(), model.capacity - queued);
        assert_eq!(it.window_end(), model.unread.checked_add(model.capacity as u64));
        assert_eq!(it.held().take(99).collect::<Runs>(), model.held());
        assert_eq!((it.end(), it.is_complete()), (model.end, model.end == Some(next)));
        assert_eq!(it.has_read_all(), model.end == Some(model.unread));
        for pos in [start, end, next, u64::MAX, u64::MAX - 1] {
            assert_eq!(it.can_end(pos), model.can_end(pos), "{pos}");
        }
    }
    assert_eq!(it.into_storage().count(), model.most);
}

#[test]
fn the_greatest_capacity_takes_all_positions_of_a_stream() {
    let mut ranges = StreamRanges::new(&mut [][..], usize::MAX);
    let top = (usize::MAX as u64).min(u64::MAX - 1);
    assert_eq!(ranges.keep(Range { start: u64::MAX, end: 0 }, false), Ok(None));
    assert_eq!(ranges.keep(0..u64::MAX, true), Err(FiniteError::OtherEnd));
    assert_eq!(ranges.keep(0..u64::MAX, false), Ok(Some(0..top)));
    assert_eq!((ranges.keep(0..u64::MAX, false), ranges.next()), (Ok(None), top));
    ranges.read(ranges.queued());
    assert_eq!(ranges.first_unread(), top);
}
