//! A receiver is a queue, the position after it, and a map of positions to the bytes that are held.
use crate::assembler::Runs;
use crate::draw::Draw;
use crate::grows;
use crate::support::message;
use net_base::finite::{FiniteError, FiniteReceiver, FiniteReceiverOver};
use net_base::finite::{StreamReceiver, StreamReceiverOver};
use net_base::receiver::{Receiver, ReceiverOver, SegmentParts};
use net_base::storage::{Run, Storage, TooManyHolesError};
use std::collections::{BTreeMap, VecDeque};
use std::ops::Range;

#[derive(Clone)]
struct Model {
    capacity: usize,
    /// How many runs are held at most.
    most: usize,
    first: u64,
    next: u64,
    queue: VecDeque<u8>,
    held: BTreeMap<u64, u8>,
}

impl Model {
    fn new(capacity: usize, most: usize, first: u64) -> Self {
        Model { capacity, most, first, next: first, queue: VecDeque::new(), held: BTreeMap::new() }
    }

    fn window(&self) -> usize {
        self.capacity - self.queue.len()
    }

    /// The first position without room. None has a byte at the last number.
    fn limit(&self) -> u64 {
        self.next.saturating_add(self.window() as u64)
    }

    fn runs(&self) -> Runs {
        let mut runs = Runs::new();
        for &pos in self.held.keys() {
            match runs.last_mut() {
                Some(run) if run.1 == pos => run.1 += 1,
                _ => runs.push((pos, pos + 1)),
            }
        }
        runs
    }

    fn keep(&mut self, pos: u64, bytes: &[u8]) -> Result<(usize, usize), TooManyHolesError> {
        let window = self.next..self.limit();
        let part = (pos..u64::MAX).zip(bytes.iter().copied()).filter(|it| window.contains(&it.0));
        let (part, old) = (part.collect::<Vec<_>>(), self.held.clone());
        self.held.extend(part.iter().copied());
        let is_in_order = self.held.contains_key(&self.next);
        if self.runs().len() > self.most && !is_in_order {
            self.held = old;
            return Err(TooManyHolesError);
        }
        let begun = self.next;
        while let Some(byte) = self.held.remove(&self.next) {
            self.queue.push_back(byte);
            self.next += 1;
        }
        Ok((part.len(), (self.next - begun) as usize))
    }

    fn read(&mut self, count: usize) -> Vec<u8> {
        self.queue.drain(..count.min(self.queue.len())).collect()
    }

    /// The position of the first byte that wasn't read.
    fn begin(&self) -> u64 {
        self.next - self.queue.len() as u64
    }

    /// The first part of the queue from `offset` on: a byte's index is its number modulo the capacity.
    fn peek(&self, offset: usize, size: usize) -> Vec<u8> {
        let at = (self.begin() - self.first + offset.min(self.queue.len()) as u64)
            % self.capacity.max(1) as u64;
        self.queue
            .iter()
            .skip(offset)
            .take(size)
            .take(self.capacity - at as usize)
            .copied()
            .collect()
    }

    fn newest_runs(&self, pos: u64, recent: &mut [u64]) -> Runs {
        let (runs, mut listed) = (self.runs(), Runs::new());
        for at in [pos].into_iter().chain(recent.iter().copied()).chain(runs.iter().map(|it| it.0))
        {
            listed.extend(runs.iter().filter(|it| it.0 <= at && at < it.1));
            let last = listed.last().copied();
            if listed.iter().filter(|&&it| Some(it) == last).count() > 1
                || listed.len() > recent.len()
            {
                listed.pop();
            }
        }
        recent.iter_mut().zip(&listed).for_each(|(recent, run)| *recent = run.0);
        listed
    }

    /// What is below `next`, or else the first part that is held.
    fn duplicate_of(&self, pos: u64, len: usize) -> Option<Range<u64>> {
        let end = pos.saturating_add(len as u64);
        let old = pos.max(self.first)..end.min(self.next);
        let held = self.runs().into_iter().map(|run| run.0.max(pos)..run.1.min(end));
        [old].into_iter().chain(held).find(|it| !it.is_empty())
    }

    fn parts_of(&self, pos: u64, len: usize) -> (usize, usize, usize) {
        let count = |from: u64, to: u64| {
            let end = u128::from(pos) + len as u128;
            let (from, to) = (u128::from(from.max(pos)), u128::from(to).min(end));
            to.saturating_sub(from) as usize
        };
        let (old, here) = (count(0, self.next), count(self.next, self.limit()));
        (old, here, len - old - here)
    }

    fn state(&self) -> (u64, u64, &VecDeque<u8>, Runs) {
        (self.first, self.next, &self.queue, self.runs())
    }
}

pub fn play(draw: &mut Draw) {
    let (capacity, first) = (draw.of_these(&[0, 1, 4, 16, 24]), draw.first());
    let (mut bytes, mut other) = (vec![7; capacity], vec![8; capacity]);
    let mut larger = draw.larger(capacity);
    draw.call(format_args!("{capacity} bytes from {first}"));
    match draw.below(3) {
        0 => play_over::<_, 1>(
            draw,
            [&mut bytes, &mut other].map(|it| Receiver::new_at(&mut it[..], first)),
            larger.iter_mut().map(|it| it.as_mut_slice().into()).collect(),
            first,
        ),
        #[cfg(feature = "alloc")]
        1 => play_over::<_, 2>(
            draw,
            [bytes, other].map(|it| ReceiverOver::over_at(it, first)),
            larger,
            first,
        ),
        _ => play_over::<_, 4>(
            draw,
            [&mut bytes, &mut other].map(|it| Receiver::new_at(&mut it[..], first)),
            larger.iter_mut().map(|it| it.as_mut_slice().into()).collect(),
            first,
        ),
    }
}

fn play_over<S: Storage<u8>, const N: usize>(
    draw: &mut Draw,
    both: [ReceiverOver<S, N>; 2],
    mut larger: Vec<S>,
    first: u64,
) {
    let [mut it, mut other] = both;
    let capacity = it.capacity();
    let mut model = Model::new(capacity, N, first);
    let mut other_model = model.clone();
    let (mut recent, mut recent_model) = ([0; 3], [0; 3]);
    for step in 0..50 {
        let pos = draw.near(model.next, capacity as u64 + 3);
        let (size, offset, kind) = (draw.size(capacity), draw.size(capacity), draw.below(12));
        // Two receivers get the same bytes, as often as not.
        let salt = if draw.once_in(4) { step } else { 0 };
        let len = if draw.once_in(3) { draw.length(capacity) } else { draw.below(5) as usize };
        let data: Vec<u8> =
            (0..len as u64).map(|i| (pos.wrapping_add(i) as u8).wrapping_mul(7) ^ salt).collect();
        draw.call(format_args!("{kind}: at {pos} {data:?}, {size} {offset}"));
        let fits = pos.checked_add(len as u64).is_some();
        assert_eq!(ReceiverOver::<S, N>::fits(pos, len), fits);
        assert_eq!(it.duplicate_of(pos, len), model.duplicate_of(pos, len));
        for len in [len, size] {
            let SegmentParts { old, in_window, beyond, past_end, .. } = it.parts_of(pos, len);
            assert_eq!(((old, in_window, beyond), past_end), (model.parts_of(pos, len), 0));
        }
        match kind {
            0..=2 if fits => {
                let wanted = model.keep(pos, &data).map(|(kept, queued)| {
                    let mut runs = model.runs().into_iter();
                    (kept, queued, [(); 3].map(|()| runs.next()))
                });
                assert_eq!(it.segment(pos, &data).map(|it| (it.kept, it.queued, it.sack)), wanted);
            }
            0 => drop(message(|| it.segment(pos, &data))),
            1..=4 => {
                let wanted = model.keep(pos, &data);
                assert_eq!(it.keep(pos, &data).map(|it| (it.kept, it.queued)), wanted);
                let runs = it.newest_runs(pos, &mut recent).collect::<Runs>();
                assert_eq!(runs, model.newest_runs(pos, &mut recent_model));
                assert_eq!(recent, recent_model);
            }
            5 => {
                let mut into = vec![9; size.min(capacity + 2)];
                assert_eq!(it.peek_slice(&mut into), model.queue.len().min(into.len()));
                let count = it.read(&mut into);
                assert_eq!(
                    (&into[..count], into.len()),
                    (&model.read(into.len())[..], size.min(capacity + 2))
                );
                assert!(into[count..].iter().all(|&byte| byte == 9));
            }
            6 => {
                let part = model.peek(0, usize::MAX);
                let count = size.min(part.len());
                assert_eq!(it.read_with(|lent| (count, lent.to_vec())), (count, part));
                model.read(count);
            }
            7 if size <= model.queue.len() => {
                it.remove(size);
                model.read(size);
            }
            7 => drop(message(|| it.remove(size))),
            8 if draw.once_in(6) => {
                let first = draw.first();
                it.reset_at(first);
                model = Model::new(model.capacity, N, first);
            }
            9 => {
                std::mem::swap(&mut it, &mut other);
                std::mem::swap(&mut model, &mut other_model);
            }
            10 if draw.once_in(4) => {
                _ = grows(&mut larger, &mut model.capacity, "a smaller storage", |storage| {
                    it.grow(storage)
                })
            }
            _ => {}
        }
        see(&it, &model);
        assert_eq!(it.peek(offset, size), model.peek(offset, size));
        assert_eq!(it.same_state(&other), model.state() == other_model.state());
    }
    assert_eq!(it.into_storage().count(), model.capacity);
}

fn see<S: Storage<u8>, const N: usize>(it: &ReceiverOver<S, N>, model: &Model) {
    let (queued, window) = (model.queue.len(), model.window());
    assert_eq!((it.next(), it.queued(), it.window()), (model.next, queued, window));
    assert_eq!((it.capacity(), it.is_empty()), (model.capacity, queued == 0));
    assert_eq!(it.window_end(), model.next.checked_add(window as u64));
    assert_eq!(
        (it.held().take(99).collect::<Runs>(), it.held_count()),
        (model.runs(), model.runs().len())
    );
    let (one, other) = it.as_slices();
    assert_eq!(one, model.peek(0, usize::MAX));
    assert!([one, other].concat().iter().eq(&model.queue));
}

/// A receiver of a stream that ends is one, and the end, once it is known.
struct Finite {
    bytes: Model,
    end: Option<u64>,
}

impl Finite {
    /// The end that is known, or where none can be: at the last number.
    fn most(&self) -> u64 {
        self.end.unwrap_or(u64::MAX - 1)
    }

    fn can_end(&self, pos: u64) -> bool {
        let highest = self.bytes.held.keys().next_back().map_or(self.bytes.next, |pos| pos + 1);
        self.end.map_or(pos < u64::MAX && highest <= pos, |end| pos == end)
    }

    fn keep(
        &mut self,
        pos: u64,
        bytes: &[u8],
        is_last: bool,
    ) -> Result<(usize, usize), FiniteError> {
        let (next, last) = (self.bytes.next, pos.saturating_add(bytes.len() as u64));
        let has_room = last <= self.bytes.limit();
        let is_in_order = pos <= next && next <= last;
        // An end in order is believed before what came out of order.
        if is_last && is_in_order && has_room && last < u64::MAX && self.end != Some(next) {
            self.bytes.held.clear();
            self.end = None;
        }
        if is_last && !self.can_end(last) {
            return Err(FiniteError::OtherEnd);
        }
        let below = self.most().saturating_sub(pos).min(bytes.len() as u64) as usize;
        let kept = self.bytes.keep(pos, &bytes[..below]).map_err(|_| FiniteError::TooManyHoles)?;
        self.end = if is_last && has_room { Some(last) } else { self.end };
        Ok(kept)
    }
}

pub fn play_finite(draw: &mut Draw) {
    let (capacity, first) = (draw.of_these(&[0, 1, 4, 16]), draw.first());
    let (mut bytes, mut larger) = (vec![7; capacity], draw.larger(capacity));
    draw.call(format_args!("{capacity} bytes from {first}"));
    match draw.below(3) {
        0 => play_finite_over::<_, 1>(
            draw,
            FiniteReceiver::new_at(&mut bytes[..], first),
            larger.iter_mut().map(|it| it.as_mut_slice().into()).collect(),
            first,
        ),
        #[cfg(feature = "alloc")]
        1 => {
            play_finite_over::<_, 4>(draw, FiniteReceiverOver::over_at(bytes, first), larger, first)
        }
        _ => play_finite_over::<_, 2>(
            draw,
            FiniteReceiver::new_at(&mut bytes[..], first),
            larger.iter_mut().map(|it| it.as_mut_slice().into()).collect(),
            first,
        ),
    }
}

fn play_finite_over<S: Storage<u8>, const N: usize>(
    draw: &mut Draw,
    mut it: FiniteReceiverOver<S, N>,
    mut larger: Vec<S>,
    first: u64,
) {
    let capacity = it.receiver().capacity();
    let mut model = Finite { bytes: Model::new(capacity, N, first), end: None };
    for _ in 0..40 {
        let pos = draw.near(model.bytes.next, capacity as u64 + 3);
        let (size, kind, is_last) = (draw.size(capacity), draw.below(8), draw.once_in(5));
        let data = draw.bytes(if kind == 0 { size.min(capacity + 3) } else { size.min(4) });
        draw.call(format_args!("{kind}: at {pos} {data:?} {is_last}, {size}"));
        let below = (pos..model.most())
            .zip(&data)
            .filter(|it| it.0 >= model.bytes.next && it.0 < model.bytes.limit());
        let new = below.filter(|it| !model.bytes.held.contains_key(&it.0)).count();
        assert_eq!(it.count_new(pos, data.len()), new);
        match kind {
            0..=4 => {
                let given = it.keep(pos, &data, is_last).map(|it| (it.kept, it.queued));
                assert_eq!(given, model.keep(pos, &data, is_last));
            }
            5 => {
                let mut into = vec![0; size.min(capacity)];
                let count = it.read(&mut into);
                assert_eq!(into[..count], model.bytes.read(into.len()));
            }
            6 if size <= model.bytes.queue.len() => {
                it.remove(size);
                model.bytes.read(size);
            }
            6 => drop(message(|| it.remove(size))),
            _ if draw.once_in(8) => {
                let first = draw.first();
                it.reset_at(first);
                model = Finite { bytes: Model::new(model.bytes.capacity, N, first), end: None };
            }
            _ if draw.once_in(4) => {
                _ = grows(&mut larger, &mut model.bytes.capacity, "a smaller storage", |storage| {
                    it.grow(storage)
                })
            }
            _ => {
                let part = model.bytes.peek(0, usize::MAX);
                let count = size.min(part.len());
                assert_eq!(it.read_with(|lent| (count, lent.to_vec())), (count, part));
                model.bytes.read(count);
            }
        }
        see(it.receiver(), &model.bytes);
        let (next, end) = (model.bytes.next, model.end);
        let acknowledged = next + u64::from(end == Some(next));
        assert_eq!(
            (it.end(), it.is_complete(), it.acknowledged()),
            (end, end == Some(next), acknowledged)
        );
        assert_eq!(it.has_read_all(), end == Some(model.bytes.begin()));
        let window_end = next.checked_add(model.bytes.window() as u64);
        assert_eq!(it.window_end(), window_end.map(|it| it.max(acknowledged)));
        for pos in [pos, pos.saturating_add(data.len() as u64), next, u64::MAX, u64::MAX - 1] {
            assert_eq!(it.can_end(pos), model.can_end(pos), "{pos}");
        }
        // What is at the end and beyond is past it.
        let SegmentParts { old, in_window, beyond, past_end, .. } = it.parts_of(pos, size);
        let past =
            (u128::from(pos) + size as u128).saturating_sub(u128::from(model.most().max(pos)));
        let below = size - (past as usize).min(size);
        assert_eq!(past_end, size - below);
        assert_eq!((old, in_window, beyond), model.bytes.parts_of(pos, below));
    }
    assert_eq!(it.into_storage().count(), model.bytes.capacity);
}

/// A receiver whose runs are in storage is that of a stream that ends, and has as many runs as that has elements.
pub fn play_stream(draw: &mut Draw) {
    let (capacity, first) = (draw.of_these(&[0, 1, 4, 16]), draw.first());
    let (mut bytes, mut larger) = (vec![7; capacity], draw.larger(capacity));
    let mut runs = vec![Run { start: 3, end: 9 }; draw.below(4) as usize];
    let mut more = [5, 0, 2, 1].map(|count| vec![Run::EMPTY; count]).to_vec();
    draw.call(format_args!("{capacity} bytes, {} runs, from {first}", runs.len()));
    match draw.below(2) {
        #[cfg(feature = "alloc")]
        0 => {
            let it = StreamReceiverOver::over_at(bytes, runs, first);
            play_stream_over(draw, it, larger, more, first);
        }
        _ => play_stream_over(
            draw,
            StreamReceiver::new_at(&mut bytes[..], &mut runs[..], first),
            larger.iter_mut().map(|it| it.as_mut_slice().into()).collect(),
            more.iter_mut().map(|it| it.as_mut_slice().into()).collect(),
            first,
        ),
    }
}

fn play_stream_over<S: Storage<u8>, R: Storage<Run>>(
    draw: &mut Draw,
    mut it: StreamReceiverOver<S, R>,
    mut larger: Vec<S>,
    mut more: Vec<R>,
    first: u64,
) {
    let capacity = it.capacity();
    let mut model = Finite { bytes: Model::new(capacity, it.most_runs(), first), end: None };
    for _ in 0..40 {
        let pos = draw.near(model.bytes.next, capacity as u64 + 3);
        let (size, kind, is_last) = (draw.size(capacity), draw.below(10), draw.once_in(5));
        let data = draw.bytes(if kind == 0 { size.min(capacity + 3) } else { size.min(4) });
        draw.call(format_args!("{kind}: at {pos} {data:?} {is_last}, {size}"));
        match kind {
            0..=4 => {
                let given = it.keep(pos, &data, is_last).map(|it| (it.kept, it.queued));
                assert_eq!(given, model.keep(pos, &data, is_last));
            }
            5 => {
                let mut into = vec![0; size.min(capacity)];
                let count = it.read(&mut into);
                assert_eq!(into[..count], model.bytes.read(into.len()));
            }
            6 if size <= model.bytes.queue.len() => {
                it.remove(size);
                model.bytes.read(size);
            }
            6 => assert_eq!(message(|| it.remove(size)), "more bytes than are queued"),
            7 if draw.once_in(2) => {
                _ = grows(&mut larger, &mut model.bytes.capacity, "a smaller storage", |storage| {
                    it.grow(storage)
                })
            }
            8 if draw.once_in(2) => {
                _ = grows(&mut more, &mut model.bytes.most, "fewer runs", |runs| it.grow_runs(runs))
            }
            9 if draw.once_in(8) => {
                let (first, bytes) = (draw.first(), &model.bytes);
                it.reset_at(first);
                model = Finite { bytes: Model::new(bytes.capacity, bytes.most, first), end: None };
            }
            _ => {}
        }
        let (bytes, end) = (&model.bytes, model.end);
        assert_eq!(
            (it.next(), it.queued(), it.window()),
            (bytes.next, bytes.queue.len(), bytes.window())
        );
        assert_eq!((it.capacity(), it.most_runs()), (bytes.capacity, bytes.most));
        assert_eq!(it.window_end(), bytes.next.checked_add(bytes.window() as u64));
        assert_eq!(it.held().take(99).collect::<Runs>(), bytes.runs());
        let (one, other) = it.as_slices();
        assert_eq!(one, bytes.peek(0, usize::MAX));
        assert!([one, other].concat().iter().eq(&bytes.queue));
        assert_eq!((it.end(), it.is_complete()), (end, end == Some(bytes.next)));
        assert_eq!(it.has_read_all(), end == Some(bytes.begin()));
        for pos in [pos, pos.saturating_add(data.len() as u64), bytes.next, u64::MAX, u64::MAX - 1]
        {
            assert_eq!(it.can_end(pos), model.can_end(pos), "{pos}");
        }
        let SegmentParts { old, in_window, beyond, past_end, .. } = it.parts_of(pos, size);
        let past =
            (u128::from(pos) + size as u128).saturating_sub(u128::from(model.most().max(pos)));
        let below = size - (past as usize).min(size);
        assert_eq!(past_end, size - below);
        assert_eq!((old, in_window, beyond), bytes.parts_of(pos, below));
    }
    let (storage, runs) = it.into_storages();
    assert_eq!((storage.count(), runs.count()), (model.bytes.capacity, model.bytes.most));
}
