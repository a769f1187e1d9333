//! A ring is its elements, an index at which the queue begins, and how many are queued.
use crate::draw::Draw;
use crate::support::message;
use net_base::storage::{Empty, Full, RingBuffer, RingOver, Storage};
use std::mem::replace;

struct Model {
    all: Vec<u8>,
    read: usize,
    length: usize,
}

impl Model {
    /// The indices of at most `size` queued elements from `offset` on.
    fn queued(&self, offset: usize, size: usize) -> Vec<usize> {
        self.indices(0..self.length, offset, size)
    }

    fn free(&self, offset: usize, size: usize) -> Vec<usize> {
        self.indices(self.length..self.all.len(), offset, size)
    }

    fn indices(&self, of: std::ops::Range<usize>, offset: usize, size: usize) -> Vec<usize> {
        let from = of.skip(offset).take(size);
        from.map(|it| (self.read + it) % self.all.len()).collect()
    }

    fn enqueue(&mut self, count: usize) {
        self.length += count;
    }

    fn dequeue(&mut self, count: usize) {
        self.length -= count;
        self.read = (self.read + count) % self.all.len().max(1);
    }

    fn rewind(&mut self) {
        self.read = if self.length == 0 { 0 } else { self.read };
    }

    /// What these elements were, which are written over.
    fn write(&mut self, at: &[usize], bytes: &[u8]) -> Vec<u8> {
        at.iter().zip(bytes).map(|(&at, &byte)| replace(&mut self.all[at], byte)).collect()
    }

    fn get(&self, at: &[usize]) -> Vec<u8> {
        at.iter().map(|&at| self.all[at]).collect()
    }
}

/// Those that follow one another without a break.
fn contiguous(at: Vec<usize>) -> Vec<usize> {
    let count = at.iter().enumerate().take_while(|(i, it)| at[0] + i == **it).count();
    at[..count].to_vec()
}

/// What was lent, which is written over by the beginning of `bytes`.
fn swap(lent: &mut [u8], bytes: &[u8]) -> Vec<u8> {
    lent.iter_mut().zip(bytes).map(|(it, byte)| replace(it, *byte)).collect()
}

pub fn play(draw: &mut Draw) {
    let capacity = draw.of_these(&[0, 1, 2, 3, 5, 8, 12]);
    let (mut bytes, mut larger) = (draw.bytes(capacity), draw.larger(capacity));
    let model = Model { all: bytes.clone(), read: 0, length: 0 };
    draw.call(format_args!("a ring over {bytes:?}"));
    match (capacity, draw.below(2)) {
        (5, 0) => {
            let array = <[u8; 5]>::try_from(&bytes[..]).unwrap();
            play_over(draw, RingOver::over(array), vec![[9; 5]; 2], model);
        }
        #[cfg(feature = "alloc")]
        (_, 1) => {
            let larger = larger.into_iter().map(Into::into).collect();
            play_over(draw, RingBuffer::new(bytes), larger, model);
        }
        _ => {
            let larger = larger.iter_mut().map(|it| it.as_mut_slice().into()).collect();
            play_over(draw, RingBuffer::new(&mut bytes[..]), larger, model);
        }
    }
}

fn play_over<S: Storage<u8>>(
    draw: &mut Draw,
    mut ring: RingOver<u8, S>,
    mut larger: Vec<S>,
    mut model: Model,
) {
    for _ in 0..60 {
        let capacity = model.all.len();
        let (size, offset) = (draw.size(capacity), draw.size(capacity));
        let bytes = draw.bytes(capacity + 2);
        let (some, byte) = (&bytes[..draw.length(capacity).min(capacity + 2)], bytes[0]);
        let taken = draw.below(2) == 0;
        let kind = draw.below(23);
        draw.call(format_args!("{kind}: {size} {offset} {taken} {some:?}"));
        match kind {
            0 | 1 => {
                let at = model.free(0, 1);
                let given = if kind == 0 {
                    ring.enqueue_one().map(|it| Ok(replace(it, byte)))
                } else {
                    let f = |it: &mut u8| {
                        if taken {
                            Ok(replace(it, byte))
                        } else {
                            Err(replace(it, byte))
                        }
                    };
                    ring.enqueue_one_with(f)
                };
                let wanted = model.write(&at, &[byte]).pop().ok_or(Full);
                model.enqueue(at.len() * usize::from(kind == 0 || taken));
                assert_eq!(given.map(|it| it.unwrap_or_else(|it| it)), wanted);
            }
            2 | 3 => {
                let at = model.queued(0, 1);
                let given = if kind == 2 {
                    ring.dequeue_one().map(|it| Ok(replace(it, byte)))
                } else {
                    let f = |it: &mut u8| {
                        if taken {
                            Ok(replace(it, byte))
                        } else {
                            Err(replace(it, byte))
                        }
                    };
                    ring.dequeue_one_with(f)
                };
                let wanted = model.write(&at, &[byte]).pop().ok_or(Empty);
                model.dequeue(at.len() * usize::from(kind == 2 || taken));
                assert_eq!(given.map(|it| it.unwrap_or_else(|it| it)), wanted);
            }
            4 | 5 => {
                model.rewind();
                let at = contiguous(model.free(0, if kind == 4 { size } else { usize::MAX }));
                let wanted = model.write(&at, &bytes);
                if kind == 4 {
                    assert_eq!(swap(ring.enqueue_many(size), &bytes), wanted);
                    model.enqueue(at.len());
                } else {
                    let count = size.min(at.len());
                    let given = ring.enqueue_many_with(|lent| (count, swap(lent, &bytes)));
                    assert_eq!(given, (count, wanted));
                    model.enqueue(count);
                }
            }
            6 | 7 => {
                let at = contiguous(model.queued(0, if kind == 6 { size } else { usize::MAX }));
                let wanted = model.write(&at, &bytes);
                if kind == 6 {
                    assert_eq!(swap(ring.dequeue_many(size), &bytes), wanted);
                    model.dequeue(at.len());
                } else {
                    let count = size.min(at.len());
                    let given = ring.dequeue_many_with(|lent| (count, swap(lent, &bytes)));
                    assert_eq!(given, (count, wanted));
                    model.dequeue(count);
                }
            }
            8 => {
                model.rewind();
                let at = model.free(0, some.len());
                model.write(&at, some);
                model.enqueue(at.len());
                assert_eq!(ring.enqueue_slice(some), at.len());
            }
            9 | 10 => {
                let mut into = some.to_vec();
                let at = model.queued(if kind == 9 { 0 } else { offset }, into.len());
                let given = if kind == 9 {
                    ring.dequeue_slice(&mut into)
                } else {
                    ring.read_allocated(offset, &mut into)
                };
                let wanted = [&model.get(&at), &some[at.len()..]].concat();
                model.dequeue(if kind == 9 { at.len() } else { 0 });
                assert_eq!((given, into), (at.len(), wanted));
            }
            11 => {
                let at = model.free(offset, some.len());
                model.write(&at, some);
                assert_eq!(ring.write_unallocated(offset, some), at.len());
            }
            12 => {
                let at = contiguous(model.free(offset, size));
                assert_eq!(ring.contiguous_unallocated(offset, size), at.len());
                assert_eq!(
                    swap(ring.get_unallocated(offset, size), &bytes),
                    model.write(&at, &bytes)
                );
            }
            13 => {
                let at = contiguous(model.queued(offset, size));
                assert_eq!(ring.get_allocated(offset, size), model.get(&at));
            }
            14 if size <= capacity - model.length => {
                ring.enqueue_unallocated(size);
                model.enqueue(size);
            }
            15 if size <= model.length => {
                ring.dequeue_allocated(size);
                model.dequeue(size);
            }
            14 => drop(message(|| ring.enqueue_unallocated(size))),
            15 => drop(message(|| ring.dequeue_allocated(size))),
            16 if draw.once_in(4) => {
                ring.clear();
                (model.read, model.length) = (0, 0);
            }
            17 => {
                ring.rewind_if_empty();
                model.rewind();
            }
            22 => {
                let Some(storage) = larger.pop() else { continue };
                let count = storage.count();
                if count < model.all.len() {
                    assert_eq!(message(|| ring.grow(storage)), "a smaller storage");
                } else {
                    let queue = model.get(&model.queued(0, usize::MAX));
                    let after = storage.part(queue.len(), count).to_vec();
                    let old = ring.grow(storage);
                    assert_eq!(old.part(0, old.count()), model.all);
                    model = Model { length: queue.len(), all: [queue, after].concat(), read: 0 };
                }
            }
            _ => {
                let count = ring.dequeue_many(3).len();
                assert_eq!(count, contiguous(model.queued(0, 3)).len());
                model.dequeue(count);
            }
        }
        see(&mut ring, &model);
    }
}

/// All that can be seen.
fn see<S: Storage<u8>>(ring: &mut RingOver<u8, S>, model: &Model) {
    let (all, queue) = (model.all.len(), model.get(&model.queued(0, usize::MAX)));
    assert_eq!(
        (ring.capacity(), ring.len(), ring.window()),
        (all, model.length, all - model.length)
    );
    assert_eq!((ring.is_empty(), ring.is_full()), (model.length == 0, model.length == all));
    let part = contiguous(model.free(0, usize::MAX)).len();
    assert_eq!(ring.contiguous_window(), part);
    let (one, other) = ring.as_slices();
    assert_eq!([one, other].concat(), queue);
    assert_eq!(one.len(), contiguous(model.queued(0, usize::MAX)).len());
    assert!(ring.iter().eq(&queue) && ring.iter().rev().eq(queue.iter().rev()));
    let free = [
        ring.get_unallocated(0, usize::MAX).to_vec(),
        ring.get_unallocated(part, usize::MAX).to_vec(),
    ];
    assert_eq!(free.concat(), model.get(&model.free(0, usize::MAX)));
}
