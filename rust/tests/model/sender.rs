//! A sender is the bytes that aren't acknowledged, the number of the first of them, and the index where it lies.
use crate::draw::Draw;
use crate::grows;
use net_base::finite::{FiniteSender, FiniteSenderOver};
use net_base::storage::Storage;
use std::collections::VecDeque;

struct Model {
    capacity: usize,
    first: u64,
    queue: VecDeque<u8>,
    at: usize,
    is_closed: bool,
    is_done: bool,
    sent: u64,
}

impl Model {
    fn new(capacity: usize, first: u64) -> Self {
        Model {
            capacity,
            first,
            queue: VecDeque::new(),
            at: 0,
            is_closed: false,
            is_done: false,
            sent: first,
        }
    }

    /// The position after the last byte: the end's number, once there is one.
    fn end(&self) -> u64 {
        self.first + self.queue.len() as u64
    }

    fn window(&self) -> usize {
        let numbers = (u64::MAX - 1 - self.end()).min(usize::MAX as u64) as usize;
        if self.is_closed {
            0
        } else {
            (self.capacity - self.queue.len()).min(numbers)
        }
    }

    fn write(&mut self, bytes: &[u8]) -> usize {
        self.at = if self.queue.is_empty() && !self.is_closed { 0 } else { self.at };
        let count = self.window().min(bytes.len());
        self.queue.extend(&bytes[..count]);
        count
    }

    /// The bytes from `pos` on, below `limit`, up to the storage's end, and whether the end follows them below it.
    fn peek(&self, pos: u64, limit: u64) -> (Vec<u8>, bool) {
        let offset =
            pos.checked_sub(self.first).map_or(usize::MAX, |it| it.min(usize::MAX as u64) as usize);
        let wraps = |i: usize| (self.at + i) % self.capacity == 0 && i > offset;
        let numbers = (0..self.queue.len()).skip(offset).zip(pos..limit).map(|(i, _)| i);
        let bytes: Vec<u8> = numbers.take_while(|&i| !wraps(i)).map(|i| self.queue[i]).collect();
        let after = pos.saturating_add(bytes.len() as u64);
        let is_last = self.is_closed && !self.is_done && after == self.end() && after < limit;
        (bytes, is_last)
    }

    fn acknowledge(&mut self, next: u64) -> bool {
        let is_one = self.first + u64::from(self.is_done) <= next && next <= self.sent;
        if is_one {
            let count = (next.min(self.end()) - self.first) as usize;
            self.is_done = next > self.end();
            self.queue.drain(..count);
            self.at = (self.at + count) % self.capacity.max(1);
            self.first += count as u64;
        }
        is_one
    }
}

pub fn play(draw: &mut Draw) {
    let (capacity, first) = (draw.of_these(&[0, 1, 5, 12]), draw.first());
    let (mut bytes, mut larger) = (vec![7; capacity], draw.larger(capacity));
    draw.call(format_args!("{capacity} bytes from {first}"));
    match draw.below(2) {
        #[cfg(feature = "alloc")]
        0 => play_over(draw, FiniteSenderOver::over_at(bytes, first), larger, first),
        _ => {
            let larger = larger.iter_mut().map(|it| it.as_mut_slice().into()).collect();
            play_over(draw, FiniteSender::new_at(&mut bytes[..], first), larger, first);
        }
    }
}

fn play_over<S: Storage<u8>>(
    draw: &mut Draw,
    mut it: FiniteSenderOver<S>,
    mut larger: Vec<S>,
    first: u64,
) {
    let capacity = it.capacity();
    let mut model = Model::new(capacity, first);
    for _ in 0..50 {
        let pos = draw.near(model.first, capacity as u64 + 2);
        let limit = draw.near(pos, capacity as u64 + 2);
        let (kind, data) = (draw.below(10), draw.length(capacity));
        let data = draw.bytes(data);
        draw.call(format_args!("{kind}: {pos} {limit} {data:?}"));
        let (bytes, is_last) = model.peek(pos, limit);
        match kind {
            0..=2 => assert_eq!(it.write(&data), model.write(&data)),
            3 if draw.once_in(5) => {
                it.close();
                model.is_closed = true;
            }
            4 | 5 => {
                let given = it.send_at(pos, limit);
                assert_eq!((given.bytes, given.fin), (&bytes[..], is_last));
                let count = bytes.len() as u64 + u64::from(is_last);
                model.sent = if count > 0 { model.sent.max(pos + count) } else { model.sent };
            }
            6 => {
                let is_one = pos <= model.end() + u64::from(model.is_closed);
                assert_eq!(it.mark_sent(pos), is_one);
                model.sent = if is_one { model.sent.max(pos) } else { model.sent };
            }
            7 | 8 => {
                let next = if draw.once_in(2) { model.sent } else { pos };
                assert_eq!(it.acknowledge(next), model.acknowledge(next), "{next}");
            }
            9 if draw.once_in(9) => {
                let first = draw.first();
                it.reset_at(first);
                model = Model::new(model.capacity, first);
            }
            9 if draw.once_in(4)
                && grows(&mut larger, &mut model.capacity, "a smaller storage", |storage| {
                    it.grow(storage)
                }) =>
            {
                model.at = 0
            }
            _ => {}
        }
        let given = it.peek_at(pos, limit);
        let (bytes, is_last) = model.peek(pos, limit);
        assert_eq!((given.bytes, given.fin), (&bytes[..], is_last));
        let (given, (back, fin)) =
            (it.segment_bytes(pos..limit), model.peek(pos + bytes.len() as u64, limit));
        assert_eq!((given.front, given.back, given.fin), (&bytes[..], &back[..], fin));
        let first_number = model.first + u64::from(model.is_done);
        let numbers_end = model.end() + u64::from(model.is_closed);
        assert_eq!(
            (it.first_number(), it.numbers_end(), it.sent()),
            (first_number, numbers_end, model.sent)
        );
        let numbers = it.sent_numbers();
        assert_eq!((numbers.first_unacknowledged, numbers.sent), (first_number, model.sent));
        assert_eq!(
            (it.len(), it.is_empty(), it.window()),
            (model.queue.len(), model.queue.is_empty(), model.window())
        );
        assert_eq!(
            (it.is_closed(), it.is_closed_and_acknowledged()),
            (model.is_closed, model.is_done)
        );
    }
    assert_eq!((it.capacity(), it.into_storage().count()), (model.capacity, model.capacity));
}
