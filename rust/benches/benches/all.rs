//! Each group does one task with the crate's type and with what a program would take otherwise.
use std::collections::VecDeque;
use std::hint::black_box;
use std::sync::Mutex;

use bytes::{Buf, BytesMut};
use criterion::{criterion_group, criterion_main, Criterion, Throughput};
use net_base::receiver::Receiver;
use net_base::storage::{Assembler, PacketBuffer, PacketMetadata, RingBuffer, SplitRing};
use net_base_benches::{Boxes, Ranges};

const SIZE: usize = 1460;

/// Bytes of a segment in, and out again.
fn ring(c: &mut Criterion) {
    let mut group = c.benchmark_group("ring");
    group.throughput(Throughput::Bytes(SIZE as u64));
    let (data, mut into) = ([7; SIZE], [0; SIZE]);
    let mut ring = RingBuffer::new(vec![0; 4096]);
    group.bench_function("RingBuffer", |b| {
        b.iter(|| ring.enqueue_slice(black_box(&data)) + ring.dequeue_slice(black_box(&mut into)))
    });
    let mut queue = VecDeque::with_capacity(4096);
    group.bench_function("VecDeque", |b| {
        b.iter(|| {
            queue.extend(black_box(&data));
            let (first, second) = queue.as_slices();
            into[..first.len()].copy_from_slice(first);
            into[first.len()..].copy_from_slice(second);
            black_box(&mut into);
            queue.drain(..SIZE);
        })
    });
    let mut bytes = BytesMut::with_capacity(4096);
    group.bench_function("bytes::BytesMut", |b| {
        b.iter(|| {
            bytes.extend_from_slice(black_box(&data));
            bytes.copy_to_slice(black_box(&mut into));
        })
    });
    let split = SplitRing::<4096>::new();
    group.bench_function("SplitRing", |b| {
        b.iter(|| split.write(black_box(&data)) + split.read(black_box(&mut into)))
    });
    let locked = Mutex::new(VecDeque::with_capacity(4096));
    group.bench_function("Mutex<VecDeque>", |b| {
        b.iter(|| {
            locked.lock().unwrap().extend(black_box(&data));
            let mut queue = locked.lock().unwrap();
            into.iter_mut().zip(queue.drain(..SIZE)).for_each(|(to, byte)| *to = byte);
            black_box(&mut into);
        })
    });
}

/// Four packets of 300 bytes with a header in, and out again.
fn packets(c: &mut Criterion) {
    let mut group = c.benchmark_group("packets");
    group.throughput(Throughput::Elements(4));
    let data = [7; 300];
    let mut packets = PacketBuffer::new(vec![PacketMetadata::EMPTY; 8], vec![0; 4096]);
    group.bench_function("PacketBuffer", |b| {
        b.iter(|| {
            for header in 0..4u32 {
                packets.enqueue(300, header).unwrap().copy_from_slice(black_box(&data));
            }
            while let Ok(it) = packets.dequeue() {
                black_box(it);
            }
        })
    });
    let mut queue = VecDeque::<(u32, Box<[u8]>)>::with_capacity(8);
    group.bench_function("VecDeque of boxes", |b| {
        b.iter(|| {
            for header in 0..4 {
                queue.push_back((header, black_box(&data)[..].into()));
            }
            while let Some(it) = queue.pop_front() {
                black_box(it);
            }
        })
    });
}

/// 32 ranges with holes between them, the holes from the last one on, and all of it taken off.
fn assembler(c: &mut Criterion) {
    let mut group = c.benchmark_group("assembler");
    let offsets = || (0..32).map(|it| 2 * it + 1).chain((0..32).rev().map(|it| 2 * it));
    group.throughput(Throughput::Elements(64));
    let mut assembler = Assembler::<32>::empty();
    group.bench_function("Assembler", |b| {
        b.iter(|| {
            offsets().for_each(|it| assembler.add(black_box(it * 100), 100).unwrap());
            assert_eq!(assembler.remove_front(), 6400);
        })
    });
    let mut ranges = Ranges::default();
    group.bench_function("BTreeMap", |b| {
        b.iter(|| {
            offsets().for_each(|it| ranges.add(black_box(it * 100), 100));
            assert_eq!(ranges.remove_front(), 6400);
        })
    });
}

/// Eight segments, of which each second one comes before the one it follows, and their bytes read.
fn receiver(c: &mut Criterion) {
    let mut group = c.benchmark_group("receiver");
    group.throughput(Throughput::Bytes(8 * SIZE as u64));
    let (data, mut into) = ([7; SIZE], [0; 8 * SIZE]);
    let positions = |from: u64| (0..8u64).map(move |it| from + (it ^ 1) * SIZE as u64);
    let mut receiver = Receiver::<8>::new(vec![0; 16_384]);
    let mut from = 0;
    group.bench_function("Receiver", |b| {
        b.iter(|| {
            positions(from).for_each(|it| assert!(receiver.keep(it, black_box(&data)).is_ok()));
            from += receiver.read(black_box(&mut into)) as u64;
        })
    });
    let (mut boxes, mut from) = (Boxes::default(), 0);
    group.bench_function("BTreeMap of boxes", |b| {
        b.iter(|| {
            positions(from).for_each(|it| boxes.keep(it, black_box(&data)));
            from += boxes.read(black_box(&mut into)) as u64;
        })
    });
}

criterion_group!(all, ring, packets, assembler, receiver);
criterion_main!(all);
