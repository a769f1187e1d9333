//! Random calls of storage, time and rand, those of `SEEDS` seeds: `cargo test calls -- --nocapture` prints for each kind
//! and seed how many calls panicked, and a digest of what each call gave and of the whole state after it, panics too.
//! With `CALLS="KIND SEED"` it prints what that digest is of. `test.py` puts this beside lib.rs.
use crate::rand::Rand;
use crate::storage::{Assembler, PacketBuffer, PacketMetadata, Resettable, RingBuffer};
use crate::time::{Duration, Instant};
use std::fmt::{Debug, Write};
use std::panic::{AssertUnwindSafe, catch_unwind};
use std::prelude::v1::*;
use std::time::{SystemTime, UNIX_EPOCH};
use std::{format, print, println, vec};

const SEEDS: u64 = 4000;
const CALLS: usize = 60;
type Kind = fn(&mut Numbers) -> String;
const KINDS: [(&str, Kind); 6] =
    [("ring", ring), ("cells", cells), ("packets", packets), ("assembler", assembler), ("time", time), ("rand", rand)];

/// Numbers that a seed determines.
struct Numbers(u64);

impl Numbers {
    fn word(&mut self) -> u64 {
        self.0 = self.0.wrapping_mul(6364136223846793005).wrapping_add(1442695040888963407);
        let word = self.0 ^ self.0 >> 29;
        word.wrapping_mul(0xbf58476d1ce4e5b9) ^ word >> 32
    }

    fn below(&mut self, bound: usize) -> usize {
        (self.word() % bound as u64) as usize
    }
}

/// What a call gives, or that it panics.
fn tried<R: Debug>(call: impl FnOnce() -> R) -> String {
    catch_unwind(AssertUnwindSafe(|| format!("{:?}", call()))).unwrap_or("panic".into())
}

#[test]
fn calls() {
    std::panic::set_hook(Box::new(|_| {}));
    let one = std::env::var("CALLS").unwrap_or_default();
    println!();
    for seed in 0..SEEDS {
        for (kind, run) in KINDS.into_iter().filter(|(kind, _)| one.is_empty() || one == format!("{kind} {seed}")) {
            let text = run(&mut Numbers(seed));
            let digest = text.bytes().fold(1, |sum: u64, byte| (sum ^ byte as u64).wrapping_mul(0x100000001b3));
            println!("{kind} {seed} {} {digest:016x}", text.matches("panic").count());
            print!("{}", if one.is_empty() { "" } else { &text });
        }
    }
}

fn filled(part: &mut [u8], byte: u8) -> Vec<u8> {
    let was = part.to_vec();
    part.fill(byte);
    was
}

fn ring(numbers: &mut Numbers) -> String {
    let mut lent = [0; 12];
    let capacity = numbers.below(13);
    let mut ring = match numbers.below(2) {
        0 => RingBuffer::new(&mut lent[..capacity]),
        _ => RingBuffer::new(vec![0; capacity]),
    };
    let mut text = String::new();
    for byte in 1..=CALLS as u8 {
        let (n, at, mut buffer) = (numbers.below(9), numbers.below(14), [byte; 8]);
        let call = numbers.below(20);
        let gave = match call {
            0 => tried(|| ring.enqueue_one().map(|element| std::mem::replace(element, byte))),
            1 => tried(|| ring.dequeue_one().map(|element| std::mem::replace(element, byte))),
            2 => tried(|| ring.enqueue_one_with(|element| filled_one(element, byte, n))),
            3 => tried(|| ring.dequeue_one_with(|element| filled_one(element, byte, n))),
            4 => tried(|| filled(ring.enqueue_many(n), byte)),
            5 => tried(|| filled(ring.dequeue_many(n), byte)),
            6 => tried(|| ring.enqueue_many_with(|part| (n.min(part.len() + n / 8), filled(part, byte)))),
            7 => tried(|| ring.dequeue_many_with(|part| (n.min(part.len() + n / 8), filled(part, byte)))),
            8 => tried(|| ring.enqueue_slice(&buffer[..n.min(8)])),
            9 => tried(|| (ring.dequeue_slice(&mut buffer[..n.min(8)]), buffer)),
            10 => tried(|| filled(ring.get_unallocated(at, n), byte)),
            11 => tried(|| ring.write_unallocated(at, &buffer[..n.min(8)])),
            12 => tried(|| ring.enqueue_unallocated(n)),
            13 => tried(|| ring.get_allocated(at, n).to_vec()),
            14 => tried(|| (ring.read_allocated(at, &mut buffer[..n.min(8)]), buffer)),
            15 => tried(|| ring.dequeue_allocated(n)),
            16 if n == 0 => tried(|| ring.clear()),
            17 => tried(|| ring.get_unallocated(at, usize::MAX - n).len()),
            18 => tried(|| ring.get_allocated(at, usize::MAX - n).len()),
            _ => tried(|| (ring.capacity(), ring.window(), ring.contiguous_window(), ring.is_empty(), ring.is_full())),
        };
        writeln!(text, "{call} {n} {at}: {gave}, {} {ring:?}", ring.len()).unwrap();
    }
    text
}

fn filled_one(element: &mut u8, byte: u8, n: usize) -> Result<u8, u8> {
    let was = std::mem::replace(element, byte);
    if n < 5 { Ok(was) } else { Err(was) }
}

/// A number that is reset to one more than it was.
#[derive(Debug, Clone)]
struct Cell(u8);

impl Resettable for Cell {
    fn reset(&mut self) {
        self.0 += 1;
    }
}

fn cells(numbers: &mut Numbers) -> String {
    let (mut ring, mut text) = (RingBuffer::new(vec![Cell(0); numbers.below(5)]), String::new());
    for byte in 1..=CALLS as u8 {
        let gave = match numbers.below(5) {
            0..3 => tried(|| ring.enqueue_one().map(|cell| std::mem::replace(&mut cell.0, byte))),
            3 => tried(|| ring.dequeue_one().map(|cell| cell.0)),
            _ => tried(|| ring.reset()),
        };
        let queued = tried(|| ring.get_allocated(0, usize::MAX).to_vec());
        writeln!(text, "{gave}, {queued} {:?}", ring.get_unallocated(0, usize::MAX)).unwrap();
    }
    text
}

fn packets(numbers: &mut Numbers) -> String {
    let (mut slots, mut bytes) = ([PacketMetadata::EMPTY; 5], [0; 16]);
    let (count, capacity) = (numbers.below(6), numbers.below(17));
    let mut queue = match numbers.below(2) {
        0 => PacketBuffer::new(&mut slots[..count], &mut bytes[..capacity]),
        _ => PacketBuffer::new(vec![PacketMetadata::EMPTY; count], vec![0; capacity]),
    };
    let mut text = String::new();
    for byte in 1..=CALLS as u8 {
        let (n, k, call) = (numbers.below(9), numbers.below(9), numbers.below(12));
        let header = 1000 + byte as u32;
        let gave = match call {
            0..3 => tried(|| queue.enqueue(n, header).map(|part| filled(part, byte))),
            3..5 => tried(|| queue.enqueue_with_infallible(n, header, |part| (filled(part, byte), k.min(n)).1)),
            5..7 => tried(|| queue.dequeue().map(|(header, part)| (header, part.to_vec()))),
            7..9 => tried(|| {
                queue.dequeue_with(|header, part| {
                    *header += 1;
                    let was = filled(part, byte);
                    if k < 5 { Ok(was) } else { Err(was) }
                })
            }),
            9 => tried(|| queue.peek().map(|(header, part)| (*header, part.to_vec()))),
            _ => tried(|| (queue.is_empty(), queue.is_full(), queue.packet_capacity(), queue.payload_capacity())),
        };
        writeln!(text, "{call} {n} {k}: {gave}, {} {queue:?}", queue.payload_bytes_count()).unwrap();
    }
    text
}

fn assembler(numbers: &mut Numbers) -> String {
    let (mut assembler, mut text) = (Assembler::new(), String::new());
    let far = [1, 1, 1, 1 << 20][numbers.below(4)];
    for _ in 0..CALLS {
        let (offset, size) = (numbers.below(30) * far, numbers.below(12) * far);
        let call = numbers.below(12);
        let error = |error| format!("{error} {error:?}");
        let gave = match call {
            0..5 => tried(|| assembler.add(offset, size).map_err(error)),
            5..9 => tried(|| assembler.add_then_remove_front(offset / 2, size).map_err(error)),
            9 => tried(|| assembler.remove_front()),
            _ if size == 0 => tried(|| assembler.clear()),
            _ => tried(|| (assembler.peek_front(), assembler.is_empty(), assembler == assembler.clone())),
        };
        let copy = assembler.clone();
        let ranges: Vec<_> = assembler.iter_data().collect();
        writeln!(text, "{call} {offset} {size}: {gave}, {assembler} {assembler:?} {copy:?} {ranges:?}").unwrap();
    }
    text
}

/// Moments and lengths near 0 and near the ends.
fn number(numbers: &mut Numbers) -> i64 {
    match numbers.below(4) {
        0 => numbers.below(3000) as i64 - 1000,
        1 => i64::MAX - numbers.below(3000) as i64,
        2 => i64::MIN + numbers.below(3000) as i64,
        _ => numbers.word() as i64 >> numbers.below(64),
    }
}

/// Whether this is the moment of std's clock, up to a minute.
fn is_now(moment: Instant) -> bool {
    moment - Instant::from(SystemTime::now()) < Duration::from_secs(60)
}

fn time(numbers: &mut Numbers) -> String {
    let mut text = String::new();
    for _ in 0..CALLS {
        let (a, b, n) = (number(numbers), number(numbers), numbers.below(70) as u32);
        let (mut moment, other) = (Instant::from_micros(a), Instant::from_micros(b));
        let (mut length, by) = (Duration::from_micros(a as u64), Duration::from_micros(b as u64));
        let call = numbers.below(20);
        let gave = match call {
            // The sums and differences that aren't listed as different.
            0 if b >= 0 && a.checked_add(b).is_some() => tried(|| moment + by),
            1 if b >= 0 && a.checked_sub(b).is_some() => tried(|| moment - by),
            2 if b >= 0 && a.checked_add(b).is_some() => tried(|| moment += by),
            3 if b >= 0 && a.checked_sub(b).is_some() => tried(|| moment -= by),
            4 if a.checked_sub(b).is_some() => tried(|| moment - other),
            5 => tried(|| length + by),
            6 => tried(|| length - by),
            7 => tried(|| length += by),
            8 => tried(|| length -= by),
            9 => tried(|| (length * n, length / n)),
            10 => tried(|| length / n),
            11 => tried(|| (length << n, length >> n)),
            12 => tried(|| length >>= n),
            13 => tried(|| (Instant::from_millis(b), Instant::from_secs(b))),
            14 => tried(|| (Duration::from_millis(b as u64), Duration::from_secs(b as u64))),
            15 => tried(|| Duration::from(std::time::Duration::new(b as u64, n))),
            16 => tried(|| std::time::Duration::from(length)),
            17 if a >= 0 => tried(|| SystemTime::from(moment).duration_since(UNIX_EPOCH)),
            18 => tried(|| Instant::from(UNIX_EPOCH + std::time::Duration::from_micros(b as u64 >> 20))),
            _ => tried(|| (moment.cmp(&other), length.max(by), Duration::default(), is_now(Instant::now()))),
        };
        let parts = (moment.secs(), moment.millis(), moment.micros(), moment.total_millis(), moment.total_micros());
        let of_length = (length.secs(), length.millis(), length.micros(), length.total_millis(), length.total_micros());
        writeln!(text, "{call} {a} {b} {n}: {gave}, {moment} {moment:?} {length} {parts:?} {of_length:?}").unwrap();
    }
    text
}

fn rand(numbers: &mut Numbers) -> String {
    let mut rand = Rand::new(numbers.word());
    (0..10).map(|_| format!("{} {} {}\n", rand.rand_u32(), rand.rand_u16(), rand.rand_source_port())).collect()
}
