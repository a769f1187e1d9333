//! Compiles where `crate::{storage, time, rand, config}` have all that other code of smoltcp 0.14.0 can see of these
//! modules: paths, signatures, constness, lifetimes, variance, auto traits, derives, fields, patterns, features.
//! Put beside lib.rs, with `mod api_check;` there. Each function is one group; an error names what differs.
#![allow(unused, clippy::all)]
#![deny(unused_must_use)]
use core::fmt::{Debug, Display};
use core::ops::*;
use core::panic::{RefUnwindSafe, UnwindSafe};
use managed::ManagedSlice;

fn auto<T: Send + Sync + Unpin + UnwindSafe + RefUnwindSafe>() {}
fn auto_mut<T: Send + Sync + Unpin + RefUnwindSafe>() {} // lends `&mut`: not UnwindSafe
fn value<T: Debug + Clone + Copy + PartialEq + Eq>() {}

mod storage_paths {
    use crate::storage::{Assembler, Empty, Full, PacketBuffer, PacketMetadata, Resettable, RingBuffer};
}
use crate::storage::{Assembler, Empty, Full, PacketBuffer, PacketMetadata, Resettable, RingBuffer};

fn errors() {
    value::<Full>();
    value::<Empty>();
    auto::<Full>();
    auto::<Empty>();
    const F: Full = Full;
    const E: Empty = Empty;
    match Err::<(), _>(Full) {
        Err(Full) => {}
        Ok(()) => {}
    }
    match Err::<(), _>(Empty) {
        Err(Empty) => {}
        Ok(()) => {}
    }
    assert!(core::mem::size_of::<Full>() == 0);
}
struct Header(String_); // neither Copy, Clone nor Debug
struct String_;
struct Slot;
impl Resettable for Slot {
    fn reset(&mut self) {}
}
impl<const N: usize> Resettable for [Slot; N] {
    fn reset(&mut self) {}
}
fn resettable(x: &mut dyn Resettable) {
    x.reset()
} // dyn compatible

fn ring<'a>() {
    type R<'a> = RingBuffer<'a, u8>;
    let _: fn(ManagedSlice<'a, u8>) -> R<'a> = RingBuffer::new::<ManagedSlice<'a, u8>>;
    let _: fn(&'a mut [u8]) -> R<'a> = RingBuffer::new::<&'a mut [u8]>;
    #[cfg(feature = "alloc")]
    let _: fn(alloc::vec::Vec<u8>) -> R<'static> = RingBuffer::new::<alloc::vec::Vec<u8>>;
    let _: fn(ManagedSlice<'a, u8>) -> R<'a> = From::from;
    let _: fn(ManagedSlice<'a, Header>) -> RingBuffer<'a, Header> = RingBuffer::new::<ManagedSlice<'a, Header>>;
    let _: fn(&mut R<'a>) = RingBuffer::clear;
    let _: fn(&R<'a>) -> usize = RingBuffer::capacity;
    let _: fn(&mut RingBuffer<'a, Slot>) = RingBuffer::reset;
    let _: fn(&R<'a>) -> usize = RingBuffer::len;
    let _: fn(&R<'a>) -> usize = RingBuffer::window;
    let _: fn(&R<'a>) -> usize = RingBuffer::contiguous_window;
    let _: fn(&R<'a>) -> bool = RingBuffer::is_empty;
    let _: fn(&R<'a>) -> bool = RingBuffer::is_full;
    let _: for<'x> fn(&'x mut RingBuffer<'a, Header>) -> Result<&'x mut Header, Full> = RingBuffer::enqueue_one;
    let _: for<'x> fn(&'x mut RingBuffer<'a, Header>) -> Result<&'x mut Header, Empty> = RingBuffer::dequeue_one;
    let _: for<'x> fn(&'x mut RingBuffer<'a, Header>, usize) -> &'x mut [Header] = RingBuffer::enqueue_many;
    let _: for<'x> fn(&'x mut RingBuffer<'a, Header>, usize) -> &'x mut [Header] = RingBuffer::dequeue_many;
    let _: fn(&mut R<'a>, &[u8]) -> usize = RingBuffer::enqueue_slice;
    let _: fn(&mut R<'a>, &mut [u8]) -> usize = RingBuffer::dequeue_slice;
    let _: for<'x> fn(&'x mut RingBuffer<'a, Header>, usize, usize) -> &'x mut [Header] = RingBuffer::get_unallocated;
    let _: fn(&mut R<'a>, usize, &[u8]) -> usize = RingBuffer::write_unallocated;
    let _: fn(&mut RingBuffer<'a, Header>, usize) = RingBuffer::enqueue_unallocated;
    let _: for<'x> fn(&'x RingBuffer<'a, Header>, usize, usize) -> &'x [Header] = RingBuffer::get_allocated;
    let _: fn(&mut R<'a>, usize, &mut [u8]) -> usize = RingBuffer::read_allocated;
    let _: fn(&mut RingBuffer<'a, Header>, usize) = RingBuffer::dequeue_allocated;
}
/// Closures: the order of generic parameters, results that borrow the lent part, `FnOnce` that isn't `'static`.
fn ring_closures<'b, 'a>(r: &'b mut RingBuffer<'a, u8>) -> &'b mut [u8] {
    type O<'b> = fn(&'b mut u8) -> Result<&'b mut u8, i8>;
    let _: fn(&'b mut RingBuffer<'a, u8>, O<'b>) -> Result<Result<&'b mut u8, i8>, Full> =
        RingBuffer::enqueue_one_with::<'b, &'b mut u8, i8, O<'b>>;
    let _: fn(&'b mut RingBuffer<'a, u8>, O<'b>) -> Result<Result<&'b mut u8, i8>, Empty> =
        RingBuffer::dequeue_one_with::<'b, &'b mut u8, i8, O<'b>>;
    type M<'b> = fn(&'b mut [u8]) -> (usize, &'b mut [u8]);
    let _: fn(&'b mut RingBuffer<'a, u8>, M<'b>) -> (usize, &'b mut [u8]) =
        RingBuffer::enqueue_many_with::<'b, &'b mut [u8], M<'b>>;
    let _: fn(&'b mut RingBuffer<'a, u8>, M<'b>) -> (usize, &'b mut [u8]) =
        RingBuffer::dequeue_many_with::<'b, &'b mut [u8], M<'b>>;
    let moved = Header(String_);
    r.enqueue_many_with(move |lent| {
        core::mem::drop(moved);
        (0, lent)
    })
    .1
}
fn ring_traits<'a>() {
    fn debug<T: Debug>() {}
    debug::<RingBuffer<'a, u8>>();
    debug::<PacketBuffer<'a, u8>>();
    debug::<RingBuffer<'a, PacketMetadata<u8>>>();
    auto_mut::<RingBuffer<'a, u8>>();
    auto_mut::<PacketBuffer<'a, u8>>();
    auto::<PacketMetadata<u8>>();
    fn send_only<T: Send>() {}
    send_only::<RingBuffer<'a, core::cell::Cell<u8>>>();
}
/// Covariant in the lifetime; a packet's metadata in its header.
fn variance<'s, 'l: 's>(
    r: RingBuffer<'l, u8>,
    p: PacketBuffer<'l, u8>,
    m: PacketMetadata<&'l str>,
) -> (RingBuffer<'s, u8>, PacketBuffer<'s, u8>, PacketMetadata<&'s str>) {
    (r, p, m)
}
/// No drop that uses the lent storage: the storage may die first.
fn dropck() {
    let (mut ring, mut queue);
    let (mut bytes, mut slots) = ([0u8; 4], [PacketMetadata::EMPTY; 2]);
    let mut more = [0u8; 4];
    ring = RingBuffer::new(&mut bytes[..]);
    queue = PacketBuffer::<u8>::new(&mut slots[..], &mut more[..]);
    ring.clear();
    let _ = queue.peek();
}
/// What smoltcp doesn't mark `#[must_use]`.
fn not_must_use(r: &mut RingBuffer<u8>, p: &mut PacketBuffer<u8>, a: &mut Assembler) {
    r.capacity();
    r.len();
    r.window();
    r.contiguous_window();
    r.is_empty();
    r.is_full();
    r.enqueue_many_with(|_| (0, ()));
    r.dequeue_many_with(|_| (0, ()));
    p.is_empty();
    p.is_full();
    p.packet_capacity();
    p.payload_capacity();
    p.payload_bytes_count();
    a.peek_front();
    a.is_empty();
    a.remove_front();
}
fn packets<'a>() {
    type P<'a> = PacketBuffer<'a, Header>;
    type M = PacketMetadata<Header>;
    let _: fn(&'a mut [M], &'a mut [u8]) -> P<'a> = PacketBuffer::new::<&'a mut [M], &'a mut [u8]>;
    let _: fn(ManagedSlice<'a, M>, ManagedSlice<'a, u8>) -> P<'a> =
        PacketBuffer::new::<ManagedSlice<'a, M>, ManagedSlice<'a, u8>>;
    let _: fn(&P<'a>) -> bool = PacketBuffer::is_empty;
    let _: fn(&P<'a>) -> bool = PacketBuffer::is_full;
    let _: for<'x> fn(&'x mut P<'a>, usize, Header) -> Result<&'x mut [u8], Full> = PacketBuffer::enqueue;
    let _: for<'x> fn(&'x mut P<'a>) -> Result<(Header, &'x mut [u8]), Empty> = PacketBuffer::dequeue;
    let _: for<'x> fn(&'x mut P<'a>) -> Result<(&'x Header, &'x [u8]), Empty> = PacketBuffer::peek;
    let _: fn(&P<'a>) -> usize = PacketBuffer::packet_capacity;
    let _: fn(&P<'a>) -> usize = PacketBuffer::payload_capacity;
    let _: fn(&P<'a>) -> usize = PacketBuffer::payload_bytes_count;
    let _: fn(&mut P<'a>) = PacketBuffer::reset;
    const SLOT: M = PacketMetadata::EMPTY;
    static SLOTS: [PacketMetadata<u8>; 4] = [PacketMetadata::EMPTY; 4];
    fn copy<T: Debug + Clone + Copy>() {}
    copy::<PacketMetadata<u8>>();
}
fn packet_closures<'b, 'a>(p: &'b mut PacketBuffer<'a, u8>) {
    type I<'b> = fn(&'b mut [u8]) -> usize;
    let _: fn(&'b mut PacketBuffer<'a, u8>, usize, u8, I<'b>) -> Result<usize, Full> =
        PacketBuffer::enqueue_with_infallible::<'b, I<'b>>;
    type W<'b> = fn(&mut u8, &'b mut [u8]) -> Result<&'b mut [u8], i8>;
    let _: fn(&'b mut PacketBuffer<'a, u8>, W<'b>) -> Result<Result<&'b mut [u8], i8>, Empty> =
        PacketBuffer::dequeue_with::<'b, &'b mut [u8], i8, W<'b>>;
}
fn assembler() {
    static EMPTY: Assembler = Assembler::new();
    const A: Assembler = Assembler::new();
    struct Field {
        a: Assembler,
    }
    let mut field = Field { a: Assembler::new() };
    field.a = Assembler::new();
    let inferred = Assembler::new();
    let _: fn(&mut Assembler) = Assembler::clear;
    let _: fn(&Assembler) -> usize = Assembler::peek_front;
    let _: fn(&Assembler) -> bool = Assembler::is_empty;
    let _: fn(&mut Assembler) -> usize = Assembler::remove_front;
    fn results<T, E>(_: fn(&mut Assembler, usize, usize) -> Result<T, E>, _: T)
    where
        E: Debug + Display + Clone + Copy + PartialEq + Eq + core::error::Error + Send + Sync + 'static,
    {
    }
    results(Assembler::add, ());
    results(Assembler::add_then_remove_front, 0usize);
    fn is<T: Debug + Display + Clone + PartialEq + Eq>() {}
    is::<Assembler>();
    auto::<Assembler>();
    fn iterator<'x>(a: &'x Assembler) -> impl Iterator<Item = (usize, usize)> + Send + Sync + 'x {
        a.iter_data()
    }
    fn with_question_mark(a: &mut Assembler) -> Result<usize, &'static dyn core::error::Error> {
        let Ok(n) = a.add_then_remove_front(0, 1) else { return Ok(0) };
        Ok(n)
    }
    // Its bound is that of the build.
    let mut a = Assembler::new();
    for k in 0..crate::config::ASSEMBLER_MAX_SEGMENT_COUNT {
        assert!(a.add(2 * k + 1, 1).is_ok())
    }
    assert!(a.add(1 << 20, 1).is_err());
}
#[cfg(feature = "defmt")]
fn defmt_formats() {
    fn is<T: defmt::Format>() {}
    is::<Full>();
    is::<Empty>();
    is::<Assembler>();
    is::<Instant>();
    is::<Duration>();
}
#[cfg(feature = "defmt")]
fn defmt_format_of_metadata() {
    fn is<T: defmt::Format>() {}
    is::<PacketMetadata<u8>>();
}
use crate::time::{Duration, Instant};
const INSTANTS: [Instant; 3] = [Instant::ZERO, Instant::from_micros_const(1), Instant::from_millis_const(1)];
const PARTS: [i64; 5] = [
    INSTANTS[1].millis(),
    INSTANTS[1].micros(),
    INSTANTS[1].secs(),
    INSTANTS[1].total_millis(),
    INSTANTS[1].total_micros(),
];
const DURATIONS: [Duration; 5] =
    [Duration::ZERO, Duration::MAX, Duration::from_micros(1), Duration::from_millis(1), Duration::from_secs(1)];
const LENGTHS: [u64; 5] = [
    DURATIONS[1].millis(),
    DURATIONS[1].micros(),
    DURATIONS[1].secs(),
    DURATIONS[1].total_millis(),
    DURATIONS[1].total_micros(),
];
fn instant() {
    let _: fn(i64) -> Instant = Instant::from_micros::<i64>;
    let _: fn(i32) -> Instant = Instant::from_millis::<i32>;
    let _: fn(u32) -> Instant = Instant::from_secs::<u32>;
    let _: fn(u8) -> Instant = Instant::from_secs::<u8>;
    let _: [fn(&Instant) -> i64; 5] =
        [Instant::millis, Instant::micros, Instant::secs, Instant::total_millis, Instant::total_micros];
    let _: [fn(&Duration) -> u64; 5] =
        [Duration::millis, Duration::micros, Duration::secs, Duration::total_millis, Duration::total_micros];
    fn is<T: Debug + Display + Copy + Clone + PartialEq + Eq + PartialOrd + Ord + 'static>() {}
    is::<Instant>();
    is::<Duration>();
    auto::<Instant>();
    auto::<Duration>();
    fn ops<T: Add<Duration, Output = T> + AddAssign<Duration> + Sub<Duration, Output = T> + SubAssign<Duration>>() {}
    ops::<Instant>();
    ops::<Duration>();
    fn sub<T: Sub<Instant, Output = Duration>>() {}
    sub::<Instant>();
    fn more<
        T: Default
            + Mul<u32, Output = T>
            + MulAssign<u32>
            + Div<u32, Output = T>
            + DivAssign<u32>
            + Shl<u32, Output = T>
            + ShlAssign<u32>
            + Shr<u32, Output = T>
            + ShrAssign<u32>,
    >() {
    }
    more::<Duration>();
    let _: fn(core::time::Duration) -> Duration = Duration::from;
    let _: fn(Duration) -> core::time::Duration = core::time::Duration::from;
    let _ = (Duration::from_secs(1) * 2 / 3 << 1 >> 1)
        .min(Duration::MAX)
        .max(Duration::ZERO)
        .clamp(Duration::ZERO, Duration::MAX);
    // Patterns of a constant: structural equality.
    match Instant::ZERO {
        Instant::ZERO => {}
        _ => {}
    }
    match Duration::ZERO {
        Duration::MAX => {}
        _ => {}
    }
}
#[cfg(feature = "std")]
fn clocks() {
    let _: fn() -> Instant = Instant::now;
    let _: fn(std::time::Instant) -> Instant = Instant::from;
    let _: fn(std::time::SystemTime) -> Instant = Instant::from;
    let _: fn(Instant) -> std::time::SystemTime = std::time::SystemTime::from;
    let _: std::time::Duration = Duration::ZERO.into();
}

use crate::rand::Rand;
fn rand() {
    const R: Rand = Rand::new(7);
    let _: fn(&mut Rand) -> u32 = Rand::rand_u32;
    let _: fn(&mut Rand) -> u16 = Rand::rand_u16;
    let _: fn(&mut Rand) -> u16 = Rand::rand_source_port;
    fn is<T: Debug>() {}
    is::<Rand>();
    auto::<Rand>();
}
