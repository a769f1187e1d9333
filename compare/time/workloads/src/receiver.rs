//! A receiver of one stream over smoltcp's ring and assembler, joined as its TCP socket joins them.
use managed::ManagedSlice;
use original4::storage::RingBuffer;

/// smoltcp's assembler at some number of runs. Its error has no name outside: None is a refusal.
pub trait Assembler {
    fn new() -> Self;
    fn clear(&mut self);
    fn add(&mut self, offset: usize, size: usize) -> Option<()>;
    fn add_then_remove_front(&mut self, offset: usize, size: usize) -> Option<usize>;
    fn remove_front(&mut self) -> usize;
    fn peek_front(&self) -> usize;
    fn for_each_run(&self, f: impl FnMut(usize, usize));
}

pub use original4::storage::Assembler as Assembler4;
pub use original32::storage::Assembler as Assembler32;
pub use original256::storage::Assembler as Assembler256;
pub use original1024::storage::Assembler as Assembler1024;

macro_rules! assembler {
    ($type:ty) => {
        impl Assembler for $type {
            #[inline]
            fn new() -> Self {
                <$type>::new()
            }
            #[inline]
            fn clear(&mut self) {
                self.clear()
            }
            #[inline]
            fn add(&mut self, offset: usize, size: usize) -> Option<()> {
                self.add(offset, size).ok()
            }
            #[inline]
            fn add_then_remove_front(&mut self, offset: usize, size: usize) -> Option<usize> {
                self.add_then_remove_front(offset, size).ok()
            }
            #[inline]
            fn remove_front(&mut self) -> usize {
                self.remove_front()
            }
            #[inline]
            fn peek_front(&self) -> usize {
                self.peek_front()
            }
            #[inline]
            fn for_each_run(&self, mut f: impl FnMut(usize, usize)) {
                self.iter_data().for_each(|(start, end)| f(start, end))
            }
        }
    };
}

assembler!(Assembler4);
assembler!(Assembler32);
assembler!(Assembler256);
assembler!(Assembler1024);

/// What became of a segment: how many of its bytes were kept, and how many were queued by it.
pub struct Segment {
    pub kept: usize,
    pub queued: usize,
}

/// What a workload asks of a receiver. None is a refusal.
pub trait Stream {
    fn segment(&mut self, position: u64, bytes: &[u8]) -> Option<Segment>;
    fn read(&mut self, into: &mut [u8]) -> usize;
}

impl<A: Assembler> Stream for Receiver<'_, A> {
    #[inline]
    fn segment(&mut self, position: u64, bytes: &[u8]) -> Option<Segment> {
        self.segment(position, bytes)
    }
    #[inline]
    fn read(&mut self, into: &mut [u8]) -> usize {
        self.read(into)
    }
}

/// A receiver of one stream.
pub struct Receiver<'a, A> {
    ring: RingBuffer<'a, u8>,
    assembler: A,
    /// The position of the queue's first byte.
    read: u64,
}

impl<'a, A: Assembler> Receiver<'a, A> {
    /// An empty receiver, whose stream begins at the position `first`.
    pub fn new(storage: impl Into<ManagedSlice<'a, u8>>, first: u64) -> Self {
        Receiver { ring: RingBuffer::new(storage), assembler: A::new(), read: first }
    }

    /// The first position that is not queued.
    pub fn next(&self) -> u64 {
        self.read + self.ring.len() as u64
    }

    pub fn queued(&self) -> usize {
        self.ring.len()
    }

    pub fn window(&self) -> usize {
        self.ring.window()
    }

    /// Keeps the bytes that are in the window; `None` if they would make too many runs.
    #[inline]
    pub fn segment(&mut self, position: u64, bytes: &[u8]) -> Option<Segment> {
        let next = self.next();
        let old = next.saturating_sub(position).min(bytes.len() as u64) as usize;
        let (offset, bytes) = (position.saturating_sub(next), &bytes[old..]);
        let room = (self.ring.window() as u64).saturating_sub(offset).min(bytes.len() as u64) as usize;
        let (offset, bytes) = (offset as usize, &bytes[..room]);
        if bytes.is_empty() {
            return Some(Segment { kept: 0, queued: 0 });
        }
        let queued = self.assembler.add_then_remove_front(offset, bytes.len())?;
        let kept = self.ring.write_unallocated(offset, bytes);
        self.ring.enqueue_unallocated(queued);
        Some(Segment { kept, queued })
    }

    /// Takes bytes off the queue: how many.
    #[inline]
    pub fn read(&mut self, into: &mut [u8]) -> usize {
        let count = self.ring.dequeue_slice(into);
        self.read += count as u64;
        count
    }

    /// The contiguous bytes at the front of the queue.
    #[inline]
    pub fn peek(&self) -> &[u8] {
        self.ring.get_allocated(0, self.ring.len())
    }

    /// Hands them to a closure, and takes off as many as it counts.
    #[inline]
    pub fn read_with<R>(&mut self, f: impl FnOnce(&[u8]) -> (usize, R)) -> (usize, R) {
        let answer = self.ring.dequeue_many_with(|bytes| f(bytes));
        self.read += answer.0 as u64;
        answer
    }

    /// The runs that are kept beyond the queue, by their positions.
    pub fn held(&self) -> Vec<(u64, u64)> {
        let (next, mut held) = (self.next(), Vec::new());
        self.assembler.for_each_run(|start, end| held.push((next + start as u64, next + end as u64)));
        held
    }
}
