//! Heads, called with numbers about 0, the middle and the greatest `usize`, beside models in numbers of 128 bits.
use crate::storage::packets_head::PacketsHead;
use crate::storage::{AssemblerHead, RingHead, Run};
use std::vec::Vec;

/// The generator xorshift64.
struct Random(u64);

impl Random {
    fn next(&mut self) -> u64 {
        self.0 ^= self.0 << 13;
        self.0 ^= self.0 >> 7;
        self.0 ^= self.0 << 17;
        self.0
    }

    /// A number up to `most`, most often next to 0, the middle or `most`.
    fn number(&mut self, most: usize) -> usize {
        let near = (self.next() % 12) as usize;
        match self.next() % 5 {
            0 => near.min(most),
            1 | 2 => most - near.min(most),
            3 => (most / 2).saturating_add(near).min(most),
            _ => (self.next() as usize).min(most),
        }
    }
}

/// The index `offset` after `read`, which wraps at the capacity.
fn after(capacity: u128, read: u128, offset: u128) -> u128 {
    if read + offset < capacity {
        read + offset
    } else {
        read + offset - capacity
    }
}

#[test]
fn rings() {
    let mut random = Random(0x1234_5678_9abc_def1);
    for _ in 0..100_000 {
        let capacity = random.number(usize::MAX);
        let length = random.number(capacity);
        let read_at = if capacity == 0 { 0 } else { random.number(capacity - 1) };
        let mut head = RingHead { read_at, length };
        assert!(head.is_sound(capacity));
        let (c, r, n) = (capacity as u128, read_at as u128, length as u128);
        let (offset, size) = (random.number(usize::MAX), random.number(usize::MAX));
        let (o, s) = (offset as u128, size as u128);
        let span = head.unallocated(capacity, offset, size);
        let count = s.min((c - n).saturating_sub(o));
        assert_eq!(span.count as u128, count);
        assert_eq!(span.from as u128, after(c, r, n + o.min(c - n)));
        assert_eq!(span.contiguous as u128, count.min(c - span.from as u128));
        let span = head.allocated(capacity, offset, size);
        let count = s.min(n.saturating_sub(o));
        assert_eq!((span.count as u128, span.from as u128), (count, after(c, r, o.min(n))));
        let back = random.number(capacity);
        assert_eq!(head.last_dequeued_index(capacity, back) as u128, after(c, r, c - back as u128));
        let room = head.contiguous_window(capacity) as u128;
        assert!(room <= c - n && after(c, r, n) + room <= c);
        match random.next() % 6 {
            0 => {
                let count = random.number(capacity - length);
                head.enqueue(capacity, count);
                assert_eq!(head.length as u128, n + count as u128);
            }
            1 => {
                let count = random.number(length);
                head.dequeue(capacity, count);
                assert_eq!(
                    (head.read_at as u128, head.length as u128),
                    (after(c, r, count as u128), n - count as u128)
                );
            }
            2 => {
                let span = head.unallocated(capacity, 0, size);
                assert_eq!(span.count as u128, s.min(c - n));
                head.enqueue(capacity, span.count);
            }
            3 => {
                let span = head.enqueue_many(capacity, size);
                assert_eq!(head.length as u128, n + span.count as u128);
            }
            4 => {
                let span = head.allocated(capacity, 0, size);
                assert_eq!(span.count as u128, s.min(n));
                head.dequeue(capacity, span.count);
            }
            _ => {
                let span = head.dequeue_many(capacity, size);
                assert_eq!(span.count as u128, s.min(n).min(c - r));
            }
        }
        assert!(head.is_sound(capacity));
    }
}

#[test]
fn packets() {
    let mut random = Random(0x0f1e_2d3c_4b5a_6978);
    let mut placed = 0;
    for _ in 0..100_000 {
        let (slot_count, capacity) = (random.number(usize::MAX), random.number(usize::MAX));
        let mut head = PacketsHead {
            slots: RingHead {
                read_at: random.number(slot_count.saturating_sub(1)),
                length: random.number(slot_count),
            },
            bytes: RingHead {
                read_at: random.number(capacity.saturating_sub(1)),
                length: random.number(capacity),
            },
        };
        assert!(head.is_sound(slot_count, capacity));
        let (size, old) = (random.number(usize::MAX), head);
        if let Some(place) = head.place(slot_count, capacity, size) {
            placed += 1;
            assert!(place.from as u128 + size as u128 <= capacity as u128);
            assert_eq!(
                head.bytes.length as u128,
                old.bytes.length as u128 + place.gap as u128 + size as u128
            );
        }
        assert!(head.is_sound(slot_count, capacity));
    }
    assert!(placed > 1000);
}

/// Runs with a range, rising, with holes between.
fn with(runs: &[(u128, u128)], from: u128, to: u128) -> Vec<(u128, u128)> {
    let mut all: Vec<(u128, u128)> = runs.to_vec();
    if from < to {
        all.push((from, to));
    }
    all.sort();
    let mut out: Vec<(u128, u128)> = Vec::new();
    for (a, b) in all {
        match out.last_mut() {
            Some(last) if a <= last.1 => last.1 = last.1.max(b),
            _ => out.push((a, b)),
        }
    }
    out
}

/// What is left of runs from a position on, counted from there.
fn down(runs: &[(u128, u128)], by: u128) -> Vec<(u128, u128)> {
    runs.iter().filter(|r| r.1 > by).map(|r| (r.0.saturating_sub(by), r.1 - by)).collect()
}

#[test]
fn assemblers() {
    let mut random = Random(0x7777_1234_aaaa_0001);
    let (mut head, mut runs, mut model) =
        (AssemblerHead::new(), [Run { start: 0, end: 0 }; 4], Vec::new());
    let (mut done, mut refused) = (0, 0);
    for _ in 0..100_000 {
        match random.next() % 8 {
            0..=4 => {
                let (offset, size) = (random.number(usize::MAX), random.number(usize::MAX));
                let fits = offset as u128 + size as u128 <= usize::MAX as u128;
                assert_eq!(AssemblerHead::fits(offset, size), fits);
                let size = if fits { size } else { size.min(usize::MAX - offset) };
                let next = with(&model, offset as u128, offset as u128 + size as u128);
                if random.next() % 2 == 0 {
                    let result = head.add(&mut runs, offset, size);
                    assert_eq!(result.is_ok(), size == 0 || next.len() <= 4);
                    refused += result.is_err() as u32;
                    model = if result.is_ok() { next } else { model };
                } else if offset > 0 && size > 0 {
                    let result = head.add_then_remove_front(&mut runs, offset, size);
                    if let Ok(front) = result {
                        let all = next.first().map_or(0, |r| if r.0 == 0 { r.1 } else { 0 });
                        assert_eq!(front as u128, all);
                        model = down(&next, all);
                        done += 1;
                    }
                } else {
                    let front =
                        head.add_then_remove_front(&mut runs, 0, size).expect("never refused");
                    let next = with(&model, 0, size as u128);
                    let all = next.first().map_or(0, |r| if r.0 == 0 { r.1 } else { 0 });
                    assert_eq!(front as u128, all);
                    model = down(&next, all);
                }
            }
            5 => {
                let front = head.remove_front(&mut runs) as u128;
                assert_eq!(
                    front,
                    model.first().map_or(0, |r: &(u128, u128)| if r.0 == 0 { r.1 } else { 0 })
                );
                model = down(&model, front);
            }
            6 => {
                let by = random.number(usize::MAX);
                head.shift(&mut runs, by);
                model = down(&model, by as u128);
            }
            _ if random.next() % 16 == 0 => {
                head.clear();
                model.clear();
            }
            _ => {}
        }
        assert!(head.is_sound(&runs));
        let shown: Vec<_> = head.iter_data(&runs).map(|(a, b)| (a as u128, b as u128)).collect();
        assert_eq!(shown, model);
        let mut from = 0;
        for (k, (a, b)) in head.holes(&runs).enumerate() {
            assert_eq!(Some((a, b)), head.hole_at(&runs, k));
            assert!(from <= a as u128 && a < b);
            from = b as u128;
        }
        for k in 0..5 {
            assert_eq!(
                head.run_at(&runs, k).map(|r| (r.0 as u128, r.1 as u128)),
                model.get(k).copied()
            );
        }
        let at = random.number(usize::MAX);
        assert_eq!(
            head.contains(&runs, at),
            model.iter().any(|r| r.0 <= at as u128 && (at as u128) < r.1)
        );
    }
    assert!(done > 1000 && refused > 10, "{done} {refused}");
}
