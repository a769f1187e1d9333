//! The workloads of `perf`, over smoltcp. Each makes its whole loop inside and returns a checksum.
pub mod receiver;

use original4::doors::Rand;
use original4::storage::{PacketBuffer, PacketMetadata, RingBuffer};
use receiver::{Assembler, Assembler4, Assembler32, Assembler256, Assembler1024, Receiver, Stream};
use std::hint::black_box;

/// A slice that crosses the border of a library.
#[repr(C)]
pub struct Part<T> {
    pub at: *mut T,
    pub len: usize,
}

impl<T> Part<T> {
    /// The slice, for as long as the caller likes: `Memory` says who keeps it.
    pub fn slice<'a>(&self) -> &'a mut [T] {
        unsafe { std::slice::from_raw_parts_mut(self.at, self.len) }
    }
}

/// What a workload is run on. The slices are live and apart from one another while it runs; `number` is a
/// chunk's length, the assembler's number of runs, or a seed.
#[repr(C)]
pub struct Memory {
    pub storage: Part<u8>,
    pub source: Part<u8>,
    pub sink: Part<u8>,
    pub ops: Part<usize>,
    pub number: u64,
    pub rounds: u64,
}

/// Runs a workload and returns its checksum.
pub type Workload = extern "C" fn(&Memory) -> u64;

/// How many workloads there are.
pub const COUNT: usize = 13;

/// Their names, `np_` of `perf` left out.
pub const NAMES: [&str; COUNT] = [
    "ring_slice", "ring_many", "ring_ahead", "ring_one", "packet", "asm_add", "asm_front", "asm_slide",
    "stream", "stream_lent", "rand", "port", "checksum",
];

/// The workloads over smoltcp, in the order of their names.
pub static ORIGINAL: [Workload; COUNT] = [
    ring_slice, ring_many, ring_ahead, ring_one, packet, asm_add, asm_front, asm_slide, stream, stream_lent,
    rand, port, checksum,
];

/// The checksum of nothing.
pub const START: u64 = 0xcbf29ce484222325;

/// The checksum with one more number.
#[inline]
pub fn mix(sum: u64, x: u64) -> u64 {
    (sum ^ x).wrapping_mul(0x100000001b3)
}

/// How many chunks are in a ring of `bytes` bytes before the first round.
pub fn lead(bytes: usize, chunk: usize) -> usize {
    (bytes / 2 / chunk).min(64)
}

/// A ring of bytes, filled and emptied by slices.
pub trait SliceRing {
    fn enqueue_slice(&mut self, bytes: &[u8]) -> usize;
    fn dequeue_slice(&mut self, into: &mut [u8]) -> usize;
}

impl SliceRing for RingBuffer<'_, u8> {
    #[inline]
    fn enqueue_slice(&mut self, bytes: &[u8]) -> usize {
        self.enqueue_slice(bytes)
    }

    #[inline]
    fn dequeue_slice(&mut self, into: &mut [u8]) -> usize {
        self.dequeue_slice(into)
    }
}

extern "C" fn ring_slice(m: &Memory) -> u64 {
    slices(m, RingBuffer::new(m.storage.slice()))
}

/// Puts in a chunk and takes one out, in each round.
pub fn slices<R: SliceRing>(m: &Memory, mut ring: R) -> u64 {
    let (source, sink) = (m.source.slice(), m.sink.slice());
    let (mut sum, chunk) = (START, source.len());
    for _ in 0..lead(m.storage.len, chunk) {
        sum = mix(sum, ring.enqueue_slice(source) as u64);
    }
    for _ in 0..m.rounds {
        sum = mix(sum, ring.enqueue_slice(source) as u64);
        sum = mix(sum, ring.dequeue_slice(sink) as u64);
        sum = mix(sum, sink[0].into());
        sum = mix(sum, sink[chunk - 1].into());
    }
    sum
}

extern "C" fn ring_many(m: &Memory) -> u64 {
    let (mut sum, chunk) = (START, m.number as usize);
    let storage = m.storage.slice();
    let lead = lead(storage.len(), chunk);
    let mut ring = RingBuffer::new(storage);
    for _ in 0..lead {
        sum = mix(sum, ring.enqueue_many(chunk).len() as u64);
    }
    for round in 0..m.rounds {
        let part = ring.enqueue_many(chunk);
        sum = mix(sum, part.len() as u64);
        if let Some(first) = part.first_mut() {
            *first = round as u8;
        }
        let part = ring.dequeue_many(chunk);
        sum = mix(sum, part.len() as u64);
        if let Some(&first) = part.first() {
            sum = mix(sum, first.into());
        }
    }
    sum
}

extern "C" fn ring_ahead(m: &Memory) -> u64 {
    let (storage, source) = (m.storage.slice(), m.source.slice());
    let (mut sum, half) = (START, storage.len() / 2);
    let mut ring = RingBuffer::new(storage);
    ring.enqueue_unallocated(half);
    for _ in 0..m.rounds {
        let second = ring.write_unallocated(source.len(), source);
        let first = ring.write_unallocated(0, source);
        let count = (first + second).min(ring.window());
        ring.enqueue_unallocated(count);
        sum = mix(sum, count as u64);
        if let Some(&front) = ring.get_allocated(0, 1).first() {
            sum = mix(sum, front.into());
        }
        ring.dequeue_allocated(count.min(ring.len()));
    }
    sum
}

extern "C" fn ring_one(m: &Memory) -> u64 {
    let storage = m.storage.slice();
    let (mut sum, lead) = (START, lead(storage.len(), 1));
    let mut ring = RingBuffer::new(storage);
    let enqueue = |ring: &mut RingBuffer<'_, u8>, sum: &mut u64, byte: u8| match ring.enqueue_one() {
        Ok(place) => *place = byte,
        Err(_) => *sum = mix(*sum, 256),
    };
    for _ in 0..lead {
        enqueue(&mut ring, &mut sum, 1);
    }
    for round in 0..m.rounds {
        enqueue(&mut ring, &mut sum, round as u8);
        sum = mix(sum, ring.dequeue_one().map_or(257, |place| (*place).into()));
    }
    sum
}

/// The checksum with a payload's length, and its first and last byte.
#[inline]
pub fn mix_ends(sum: u64, bytes: &[u8]) -> u64 {
    let sum = mix(sum, bytes.len() as u64);
    match (bytes.first(), bytes.last()) {
        (Some(&first), Some(&last)) => mix(mix(sum, first.into()), last.into()),
        _ => sum,
    }
}

extern "C" fn packet(m: &Memory) -> u64 {
    let source = m.source.slice();
    let mut slots: [PacketMetadata<u32>; 16] = [PacketMetadata::EMPTY; 16];
    let mut queue = PacketBuffer::new(&mut slots[..], m.storage.slice());
    let mut sum = START;
    for round in 0..m.rounds.saturating_add(4) {
        match queue.enqueue(source.len(), round as u32) {
            Ok(payload) => payload.copy_from_slice(source),
            Err(_) => sum = mix(sum, 1),
        }
        if round >= 4 {
            sum = match queue.dequeue() {
                Ok((header, payload)) => mix_ends(mix(sum, header.into()), payload),
                Err(_) => mix(sum, 2),
            };
        }
    }
    sum
}

/// Runs a workload over an assembler of as many runs as a number says.
macro_rules! sized {
    ($workload:ident, $m:ident) => {
        match $m.number {
            4 => $workload::<Assembler4>($m),
            32 => $workload::<Assembler32>($m),
            256 => $workload::<Assembler256>($m),
            _ => $workload::<Assembler1024>($m),
        }
    };
}

extern "C" fn asm_add(m: &Memory) -> u64 {
    sized!(add, m)
}

/// Adds each range to an empty assembler, in each round.
pub fn add<A: Assembler>(m: &Memory) -> u64 {
    let (mut sum, mut assembler) = (START, A::new());
    for _ in 0..m.rounds {
        assembler.clear();
        let mut refused = 0;
        for op in m.ops.slice().chunks_exact(2) {
            refused += u64::from(assembler.add(op[0], op[1]).is_none());
        }
        sum = mix(mix(sum, refused), assembler.peek_front() as u64);
    }
    mix_runs(sum, &assembler)
}

extern "C" fn asm_front(m: &Memory) -> u64 {
    sized!(front, m)
}

/// Adds each range to an empty assembler and removes the front, in each round.
pub fn front<A: Assembler>(m: &Memory) -> u64 {
    let (mut sum, mut assembler) = (START, A::new());
    for _ in 0..m.rounds {
        assembler.clear();
        let mut refused = 0;
        for op in m.ops.slice().chunks_exact(2) {
            match assembler.add_then_remove_front(op[0], op[1]) {
                Some(front) => sum = mix(sum, front as u64),
                None => refused += 1,
            }
        }
        sum = mix(sum, refused);
    }
    mix_runs(sum, &assembler)
}

extern "C" fn asm_slide(m: &Memory) -> u64 {
    sized!(slide, m)
}

/// Adds all ranges but the last two, and then these two, in each round, each time removing the front.
pub fn slide<A: Assembler>(m: &Memory) -> u64 {
    let (mut sum, mut assembler) = (START, A::new());
    let mut add = |op: &[usize]| {
        let front = assembler.add_then_remove_front(op[0], op[1]);
        sum = mix(sum, front.map_or(u64::MAX, |front| front as u64));
    };
    let (waiting, round) = m.ops.slice().split_at(m.ops.len - 4);
    waiting.chunks_exact(2).for_each(&mut add);
    for _ in 0..m.rounds {
        round.chunks_exact(2).for_each(&mut add);
    }
    mix_runs(sum, &assembler)
}

fn mix_runs<A: Assembler>(mut sum: u64, assembler: &A) -> u64 {
    assembler.for_each_run(|start, end| sum = mix(mix(sum, start as u64), end as u64));
    sum
}

extern "C" fn stream(m: &Memory) -> u64 {
    if m.number == 4 {
        receive(m, Receiver::<Assembler4>::new(m.storage.slice(), 0))
    } else {
        receive(m, Receiver::<Assembler32>::new(m.storage.slice(), 0))
    }
}

/// Sends each segment and reads all that is queued, in each round.
pub fn receive(m: &Memory, mut receiver: impl Stream) -> u64 {
    let (data, sink) = (m.source.slice(), m.sink.slice());
    let mut sum = START;
    for round in 0..m.rounds {
        let base = round * data.len() as u64;
        let (mut kept, mut queued, mut refused) = (0, 0, 0);
        for op in m.ops.slice().chunks_exact(2) {
            match receiver.segment(base + op[0] as u64, &data[op[0]..op[0] + op[1]]) {
                Some(segment) => {
                    kept += segment.kept as u64;
                    queued += segment.queued as u64;
                }
                None => refused += 1,
            }
        }
        sum = mix(mix(mix(sum, kept), queued), refused);
        loop {
            let count = receiver.read(sink);
            if count == 0 {
                break;
            }
            sum = mix_ends(sum, &sink[..count]);
        }
    }
    sum
}

extern "C" fn stream_lent(m: &Memory) -> u64 {
    let source = m.source.slice();
    let (mut sum, mut receiver) = (START, Receiver::<Assembler4>::new(m.storage.slice(), 0));
    for _ in 0..m.rounds {
        let Some(segment) = receiver.segment(receiver.next(), source) else {
            return sum;
        };
        sum = mix(sum, segment.queued as u64);
        // The queue has two parts at most.
        for _ in 0..2 {
            sum = mix_ends(sum, receiver.peek());
            let (count, front) =
                receiver.read_with(|bytes| (bytes.len(), bytes.first().copied().unwrap_or(0)));
            sum = mix(mix(sum, count as u64), front.into());
        }
    }
    sum
}

extern "C" fn rand(m: &Memory) -> u64 {
    let mut rand = Rand::new(m.number);
    (0..m.rounds).fold(START, |sum, _| mix(sum, rand.rand_u32().into()))
}

extern "C" fn port(m: &Memory) -> u64 {
    let mut rand = Rand::new(m.number);
    (0..m.rounds).fold(START, |sum, _| mix(sum, rand.rand_source_port().into()))
}

/// The checksum of bytes, as smoltcp's `wire::ip::checksum::data` sums them, which its copy here lacks.
#[inline(never)]
pub fn smoltcp_checksum(bytes: &[u8]) -> u16 {
    let word = |pair: &[u8]| u32::from(u16::from_be_bytes([pair[0], pair[1]]));
    let (mut rest, mut sum) = (bytes, 0);
    while rest.len() >= 32 {
        let mut chunk = &rest[..32];
        while chunk.len() >= 2 {
            sum += word(chunk);
            chunk = &chunk[2..];
        }
        rest = &rest[32..];
    }
    while rest.len() >= 2 {
        sum += word(rest);
        rest = &rest[2..];
    }
    if let Some(&high) = rest.first() {
        sum += u32::from(high) << 8;
    }
    let sum = (sum >> 16) + (sum & 0xffff);
    !((sum >> 16) as u16).wrapping_add(sum as u16)
}

extern "C" fn checksum(m: &Memory) -> u64 {
    let bytes = m.source.slice();
    (0..m.rounds).fold(START, |sum, _| mix(sum, smoltcp_checksum(black_box(&*bytes)).into()))
}
