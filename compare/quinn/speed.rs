//! Quinn's `Assembler` and `SendBuffer`, those over net-base, and rings of net-base, in turn. Each row moves 1 MiB in
//! frames of 1,200 bytes, if it says nothing else. run.sh makes a table of what this prints: what a frame takes, with
//! `count` how many frames there are, for callgrind, and with `memory` how much each holds.

use std::{
    alloc::{GlobalAlloc, Layout, System},
    collections::VecDeque,
    hint::black_box,
    mem::size_of,
    ops::Range,
    sync::atomic::{AtomicUsize, Ordering::Relaxed},
    time::Instant,
};

use bytes::Bytes;

mod ported {
    pub mod assembler;
    pub mod send_buffer;
}
mod quinn {
    pub mod assembler;
    pub mod send_buffer;
}
mod range_set;
mod rings;

const TOTAL: usize = 1 << 20;
const FRAME: usize = 1200;
/// In each pass all three take turns. The median of the passes counts, and in a pass the shortest turn.
const PASSES: usize = 9;

/// What of quinn's `VarInt` the send buffers call.
pub(crate) struct VarInt(u64);

impl VarInt {
    fn from_u64(value: u64) -> Result<Self, ()> {
        if value < 1 << 62 {
            Ok(VarInt(value))
        } else {
            Err(())
        }
    }

    unsafe fn from_u64_unchecked(value: u64) -> Self {
        VarInt(value)
    }

    fn size(self) -> usize {
        match self.0 {
            0..=0x3f => 1,
            0x40..=0x3fff => 2,
            0x4000..=0x3fff_ffff => 4,
            _ => 8,
        }
    }
}

trait Receive: Default {
    fn insert(&mut self, offset: u64, bytes: Bytes, datagram: usize);
    /// Shows all that can be read, and takes it.
    fn read(&mut self, see: impl FnMut(&[u8]));
}

trait Send: Default {
    fn write(&mut self, data: Bytes);
    fn ack(&mut self, range: Range<u64>);
    fn poll_transmit(&mut self, max_len: usize) -> Range<u64>;
    fn get(&self, range: Range<u64>) -> &[u8];
    fn retransmit(&mut self, range: Range<u64>);
    fn has_unsent_data(&self) -> bool;
    fn is_fully_acked(&self) -> bool;
}

macro_rules! both {
    ($($module:ident)*) => {$(
        impl Receive for $module::assembler::Assembler {
            fn insert(&mut self, offset: u64, bytes: Bytes, datagram: usize) {
                // What is refused would end a connection.
                let _ = self.insert(offset, bytes, datagram);
            }
            fn read(&mut self, mut see: impl FnMut(&[u8])) {
                while let Some(chunk) = self.read(usize::MAX, true) {
                    see(&chunk.bytes);
                }
            }
        }

        impl Send for $module::send_buffer::SendBuffer {
            fn write(&mut self, data: Bytes) {
                self.write(data);
            }
            fn ack(&mut self, range: Range<u64>) {
                self.ack(range);
            }
            fn poll_transmit(&mut self, max_len: usize) -> Range<u64> {
                self.poll_transmit(max_len).0
            }
            fn get(&self, range: Range<u64>) -> &[u8] {
                self.get(range)
            }
            fn retransmit(&mut self, range: Range<u64>) {
                self.retransmit(range);
            }
            fn has_unsent_data(&self) -> bool {
                self.has_unsent_data()
            }
            fn is_fully_acked(&self) -> bool {
                self.is_fully_acked()
            }
        }
    )*};
}
both! { quinn ported }

/// Returns the frames of the stream, of so many bytes each.
fn frames(data: &Bytes, size: usize) -> Vec<(u64, Bytes)> {
    let starts = (0..data.len()).step_by(size);
    starts.map(|start| (start as u64, data.slice(start..data.len().min(start + size)))).collect()
}

/// Every 20th frame comes 20 frames late.
fn late(frames: Vec<(u64, Bytes)>) -> Vec<(u64, Bytes)> {
    let mut order: Vec<_> = frames.into_iter().enumerate().collect();
    order.sort_by_key(|(k, _)| if k % 20 == 7 { 2 * (k + 20) + 1 } else { 2 * k });
    order.into_iter().map(|(_, frame)| frame).collect()
}

/// Every second frame comes first, so that there is a hole before each.
fn with_holes(frames: Vec<(u64, Bytes)>) -> Vec<(u64, Bytes)> {
    let (even, odd): (Vec<_>, Vec<_>) = frames.into_iter().enumerate().partition(|(k, _)| k % 2 == 0);
    odd.into_iter().chain(even).map(|(_, frame)| frame).collect()
}

#[derive(Clone, Copy, PartialEq)]
enum Reads {
    /// After each frame, and copies what it reads.
    Copies,
    /// After each frame, and looks at it where it is.
    Looks,
    /// At the end, and copies it.
    AtEnd,
    Never,
}

/// Takes in frames, and reads them.
fn receive<T: Receive>(frames: &[(u64, Bytes)], reads: Reads, into: &mut [u8]) {
    let mut stream = T::default();
    let mut count = 0;
    let mut see = |bytes: &[u8]| {
        if reads == Reads::Looks {
            black_box(bytes);
        } else {
            into[count..count + bytes.len()].copy_from_slice(bytes);
        }
        count += bytes.len();
    };
    for (offset, bytes) in frames {
        stream.insert(*offset, bytes.clone(), FRAME);
        if matches!(reads, Reads::Copies | Reads::Looks) {
            stream.read(&mut see);
        }
    }
    if reads != Reads::Never {
        stream.read(&mut see);
        assert_eq!(count, TOTAL);
    }
}

#[derive(Clone, Copy, PartialEq)]
enum Acks {
    /// In order.
    All,
    /// In order, and one frame of 20 is lost once.
    Lossy,
    /// Every second frame that is in flight, and then the others.
    WithHoles,
}

/// Writes `size` bytes at a time, up to `window` ahead, sends them in frames, whose bytes it copies, and acknowledges
/// these.
fn send<T: Send>(data: &Bytes, size: usize, window: usize, acks: Acks) -> T {
    let mut stream = T::default();
    let mut packet = Vec::with_capacity(FRAME);
    let mut flight = VecDeque::new();
    let (mut written, mut acknowledged, mut lost) = (0, 0, 0);
    while written < TOTAL || !stream.is_fully_acked() {
        while written < TOTAL && written + size <= acknowledged + window {
            let end = TOTAL.min(written + size);
            stream.write(data.slice(written..end));
            written = end;
        }
        while stream.has_unsent_data() {
            let range = stream.poll_transmit(FRAME);
            packet.clear();
            let mut rest = range.clone();
            while rest.start < rest.end {
                let part = stream.get(rest.clone());
                packet.extend_from_slice(part);
                rest.start += part.len() as u64;
            }
            black_box(&packet);
            flight.push_back(range);
        }
        let count = if acks == Acks::WithHoles { flight.len() } else { flight.len().div_ceil(2) };
        let mut ranges: Vec<_> = flight.drain(..count).collect();
        if acks == Acks::WithHoles {
            let (even, odd): (Vec<_>, Vec<_>) = ranges.into_iter().enumerate().partition(|(k, _)| k % 2 == 0);
            ranges = odd.into_iter().chain(even).map(|(_, range)| range).collect();
        }
        for range in ranges {
            if acks == Acks::Lossy && range.start as usize / FRAME % 20 == 7 && lost <= range.start {
                lost = range.end;
                stream.retransmit(range);
            } else {
                acknowledged += (range.end - range.start) as usize;
                stream.ack(range);
            }
        }
    }
    stream
}

/// Prints a row: what each takes, and by how much that differs from quinn's.
fn row(text: &str, frames: usize, turns: usize, runs: [&mut dyn FnMut(); 3]) {
    if std::env::args().nth(1).is_some() {
        runs.into_iter().for_each(counted);
        return println!("{text}|{frames}");
    }
    let time = |run: &mut dyn FnMut()| {
        let begun = Instant::now();
        run();
        begun.elapsed().as_secs_f64() * 1e9 / frames as f64
    };
    let [quinn, ranges, ring] = runs;
    let mut passes = [(); 5].map(|()| vec![]);
    for _ in 0..PASSES {
        let mut least = [f64::INFINITY; 3];
        for _ in 0..turns {
            least = [least[0].min(time(quinn)), least[1].min(time(ranges)), least[2].min(time(ring))];
        }
        let [quinn, ranges, ring] = least;
        for (column, value) in [quinn, ranges, ring, ranges / quinn, ring / quinn].into_iter().enumerate() {
            passes[column].push(value);
        }
    }
    let [quinn, ranges, ring, ratio, ring_ratio] = passes.map(|mut column| {
        column.sort_by(f64::total_cmp);
        column[PASSES / 2]
    });
    println!("{text}|{quinn}|{ranges}|{ring}|{ratio}|{ring_ratio}");
}

/// What callgrind counts.
#[no_mangle]
#[inline(never)]
fn counted(run: &mut dyn FnMut()) {
    run();
}

fn speed() {
    let data = Bytes::from((0..TOTAL).map(|pos| (7 * pos % 251) as u8).collect::<Vec<_>>());
    let into = std::cell::RefCell::new(vec![0; TOTAL]);
    let received = |text: &str, turns, order: &[(u64, Bytes)], reads| {
        row(
            text,
            order.len(),
            turns,
            [
                &mut || receive::<quinn::assembler::Assembler>(order, reads, &mut into.borrow_mut()),
                &mut || receive::<ported::assembler::Assembler>(order, reads, &mut into.borrow_mut()),
                &mut || receive::<rings::Receiver>(order, reads, &mut into.borrow_mut()),
            ],
        );
    };
    for (text, order, reads) in [
        ("received in order, looked at", frames(&data, FRAME), Reads::Looks),
        ("received in order, copied", frames(&data, FRAME), Reads::Copies),
        ("5 % of frames 20 late, copied", late(frames(&data, FRAME)), Reads::Copies),
        ("all in order, then copied", frames(&data, FRAME), Reads::AtEnd),
        ("1,000 holes of 524 bytes, then copied", with_holes(frames(&data, 524)), Reads::AtEnd),
    ] {
        received(text, 8, &order, reads);
    }
    for count in ["6,000", "12,000", "24,000"] {
        let order = every_second_byte(&data, count.replace(',', "").parse().expect("a number"));
        received(&format!("{count} frames of one byte, a hole before each"), 1, &order, Reads::Never);
    }
    for (text, window, acks) in [
        ("sent in order", 1 << 18, Acks::All),
        ("5 % of frames lost", 1 << 18, Acks::Lossy),
        ("acknowledged with 109 holes", 1 << 18, Acks::WithHoles),
        ("acknowledged with 437 holes", TOTAL, Acks::WithHoles),
    ] {
        for size in [1 << 16, 1 << 11] {
            row(
                &format!("{text}, written by {} KiB", size >> 10),
                TOTAL.div_ceil(FRAME),
                8,
                [
                    &mut || drop(send::<quinn::send_buffer::SendBuffer>(&data, size, window, acks)),
                    &mut || drop(send::<ported::send_buffer::SendBuffer>(&data, size, window, acks)),
                    &mut || drop(send::<rings::Sender>(&data, size, window, acks)),
                ],
            );
        }
    }
}

fn every_second_byte(data: &Bytes, count: usize) -> Vec<(u64, Bytes)> {
    frames(&data.slice(..2 * count), 1).into_iter().skip(1).step_by(2).collect()
}

/// Counts the bytes that are allocated. There is one thread.
struct Counting;

static ALLOCATED: AtomicUsize = AtomicUsize::new(0);

unsafe impl GlobalAlloc for Counting {
    unsafe fn alloc(&self, layout: Layout) -> *mut u8 {
        ALLOCATED.store(ALLOCATED.load(Relaxed) + layout.size(), Relaxed);
        System.alloc(layout)
    }

    unsafe fn dealloc(&self, pointer: *mut u8, layout: Layout) {
        ALLOCATED.store(ALLOCATED.load(Relaxed) - layout.size(), Relaxed);
        System.dealloc(pointer, layout)
    }
}

#[global_allocator]
static COUNTING: Counting = Counting;

/// Returns how many bytes of heap a value holds.
fn heap<T>(make: impl FnOnce() -> T) -> usize {
    let before = ALLOCATED.load(Relaxed);
    let value = make();
    let after = ALLOCATED.load(Relaxed);
    drop(value);
    after - before
}

/// Takes bytes, each of a datagram of its own, and reads none. Returns what holds them.
fn pinned<T: Receive>(positions: impl Iterator<Item = u64>) -> T {
    let mut stream = T::default();
    positions.for_each(|pos| stream.insert(pos, Bytes::from(vec![0; FRAME]).slice(..1), FRAME));
    stream
}

fn moved<T: Receive>(data: &Bytes) -> T {
    let mut stream = T::default();
    for (offset, bytes) in late(frames(data, FRAME)) {
        stream.insert(offset, bytes, FRAME);
        stream.read(|bytes| drop(black_box(bytes)));
    }
    stream
}

fn memory() {
    use {ported::send_buffer::SendBuffer, quinn::send_buffer::SendBuffer as Quinns};
    let data = Bytes::from(vec![0; TOTAL]);
    macro_rules! received {
        ($text:literal, $call:ident($($argument:expr),*)) => {
            let quinn = heap(|| $call::<quinn::assembler::Assembler>($($argument),*));
            let ranges = heap(|| $call::<ported::assembler::Assembler>($($argument),*));
            println!("{}|{quinn}|{ranges}|{}", $text, heap(|| $call::<rings::Receiver>($($argument),*)));
        };
    }
    let sizes = [
        size_of::<quinn::assembler::Assembler>(),
        size_of::<ported::assembler::Assembler>(),
        size_of::<rings::Receiver>(),
    ];
    println!("a received stream, without heap|{}|{}|{}", sizes[0], sizes[1], sizes[2]);
    received!("its heap after 1 MiB, 5 % late, when all is read", moved(&data));
    println!(
        "a sent stream, without heap|{}|{}|{}",
        size_of::<Quinns>(),
        size_of::<SendBuffer>(),
        size_of::<rings::Sender>()
    );
    println!(
        "its heap after 1 MiB, 5 % lost, when all is acknowledged|{}|{}|{}",
        heap(|| send::<Quinns>(&data, 1 << 16, 1 << 18, Acks::Lossy)),
        heap(|| send::<SendBuffer>(&data, 1 << 16, 1 << 18, Acks::Lossy)),
        heap(|| send::<rings::Sender>(&data, 1 << 16, 1 << 18, Acks::Lossy))
    );
    received!("10,000 datagrams of one byte, in order, not read", pinned(0..10_000));
    received!("10,000 of one byte, the last first", pinned((0..10_000).rev()));
    received!("10,000 of one byte, a hole before each", pinned((1..20_000).step_by(2)));
}

fn main() {
    if std::env::args().nth(1).as_deref() == Some("memory") {
        memory();
    } else {
        speed();
    }
}
