//! By hand: a ring of bytes that two sides use at once, as atomics in the order that `SplitCounts` proves.
use super::atomic::{AtomicU8, AtomicUsize, Ordering};
use super::{SplitCounts, SplitSpan};

/// A ring of `N` bytes that one side fills while another empties it, without a lock: an interrupt and a program, or two
/// threads.
///
/// [`split`](Self::split) gives each side its end. With a `static`, only one side may call [`write`](Self::write),
/// and only the other [`read`](Self::read). If two sides write at once, or two read, bytes are lost or mixed up, and
/// from then on both calls may return 0, until the program restarts. Nothing panics, and no other memory is touched.
///
/// The index arithmetic is proved, by [`SplitCounts`]. The memory ordering isn't: small programs were tested in each
/// order of their steps, and none ran on a processor whose memory is weakly ordered. (Not in smoltcp.)
///
/// ```
/// use net_base::storage::SplitRing;
///
/// static RECEIVED: SplitRing<64> = SplitRing::new();
///
/// // Called by the interrupt of a UART. A byte for which there is no room is lost.
/// fn on_byte(byte: u8) -> bool {
///     RECEIVED.write(&[byte]) == 1
/// }
///
/// assert!(on_byte(b'a') && on_byte(b'b'));
/// let mut into = [0; 8];
/// assert_eq!((RECEIVED.read(&mut into), &into[..2]), (2, &b"ab"[..]));
/// ```
#[derive(Debug)]
pub struct SplitRing<const N: usize> {
    storage: [AtomicU8; N],
    written: AtomicUsize,
    taken: AtomicUsize,
}

/// The end of a [`SplitRing`] that writes.
///
/// ```
/// use net_base::storage::{SplitRing, SplitWriter};
///
/// fn put<const N: usize>(mut writer: SplitWriter<'_, N>) -> usize {
///     writer.write(b"abc")
/// }
///
/// assert_eq!(put(SplitRing::<2>::new().split().0), 2);
/// ```
#[derive(Debug)]
pub struct SplitWriter<'a, const N: usize>(&'a SplitRing<N>);

/// The end of a [`SplitRing`] that reads.
///
/// ```
/// use net_base::storage::{SplitReader, SplitRing};
///
/// fn take<const N: usize>(mut reader: SplitReader<'_, N>) -> usize {
///     reader.read(&mut [0; 8])
/// }
///
/// assert_eq!(take(SplitRing::<2>::new().split().1), 0);
/// ```
#[derive(Debug)]
pub struct SplitReader<'a, const N: usize>(&'a SplitRing<N>);

impl<const N: usize> SplitRing<N> {
    /// Returns an empty ring.
    ///
    /// ```
    /// # use net_base::storage::SplitRing;
    /// static RING: SplitRing<8> = SplitRing::new();
    /// assert_eq!(RING.read(&mut [0; 8]), 0);
    /// ```
    #[must_use]
    pub const fn new() -> Self {
        SplitRing {
            storage: [const { AtomicU8::new(0) }; N],
            written: AtomicUsize::new(0),
            taken: AtomicUsize::new(0),
        }
    }

    /// Returns how many bytes there is room for in all.
    ///
    /// ```
    /// # use net_base::storage::SplitRing;
    /// assert_eq!(SplitRing::<8>::new().capacity(), 8);
    /// ```
    #[must_use]
    pub const fn capacity(&self) -> usize {
        N
    }

    /// Returns how many bytes are queued. If the reader asks, it can take at least `len` bytes. If the writer asks,
    /// it can add at least `capacity - len`.
    ///
    /// ```
    /// # use net_base::storage::SplitRing;
    /// static RING: SplitRing<4> = SplitRing::new();
    /// assert_eq!((RING.write(b"abc"), RING.len()), (3, 3));
    /// ```
    #[must_use]
    pub fn len(&self) -> usize {
        let written = self.written.load(Ordering::Acquire);
        let taken = self.taken.load(Ordering::Acquire);
        let counts = SplitCounts { written, taken };
        // Why: Of a third side's counts one may be older than the other.
        if counts.is_sound(N) {
            counts.queued(N, N).span.count
        } else {
            0
        }
    }

    /// Returns whether no byte is queued.
    ///
    /// ```
    /// # use net_base::storage::SplitRing;
    /// assert!(SplitRing::<4>::new().is_empty());
    /// ```
    #[must_use]
    pub fn is_empty(&self) -> bool {
        self.len() == 0
    }

    /// Lends both ends, one for each side. Queued bytes stay queued.
    ///
    /// It takes `&mut self`, so that a second writer doesn't compile. For ends that live as long as the program, get
    /// the ring as `&'static mut` from `Box::leak` or the crate `static_cell`.
    ///
    /// ```
    /// use net_base::storage::SplitRing;
    ///
    /// let mut ring = SplitRing::<3>::new();
    /// let (mut writer, mut reader) = ring.split();
    /// std::thread::scope(|threads| {
    ///     threads.spawn(move || assert_eq!(writer.write(b"abcd"), 3));
    /// });
    /// let mut into = [0; 8];
    /// assert_eq!((reader.read(&mut into), &into[..3]), (3, &b"abc"[..]));
    /// ```
    pub fn split(&mut self) -> (SplitWriter<'_, N>, SplitReader<'_, N>) {
        (SplitWriter(self), SplitReader(self))
    }

    /// Writes the first of these bytes, as many as there is room for, and returns how many. Only one side may call
    /// it.
    ///
    /// ```
    /// # use net_base::storage::SplitRing;
    /// static RING: SplitRing<4> = SplitRing::new();
    /// assert_eq!((RING.write(b"abc"), RING.write(b"de")), (3, 1));
    /// ```
    #[must_use]
    pub fn write(&self, data: &[u8]) -> usize {
        let written = self.written.load(Ordering::Relaxed);
        let taken = self.taken.load(Ordering::Acquire);
        let counts = SplitCounts { written, taken };
        if !counts.is_sound(N) {
            return 0;
        }
        let lent = counts.free(N, data.len());
        let (first, rest) = self.places(lent);
        let (data, more) = data.split_at(first.len());
        for (place, byte) in first.iter().zip(data) {
            place.store(*byte, Ordering::Relaxed);
        }
        for (place, byte) in rest.iter().zip(more) {
            place.store(*byte, Ordering::Relaxed);
        }
        self.written.store(lent.next, Ordering::Release);
        lent.span.count
    }

    /// Takes as many bytes as are queued and fit into `into`, and returns how many. The rest of `into` stays as it
    /// is. Only one side may call it.
    ///
    /// ```
    /// # use net_base::storage::SplitRing;
    /// static RING: SplitRing<4> = SplitRing::new();
    /// assert_eq!(RING.write(b"abc"), 3);
    /// let mut into = *b"--";
    /// assert_eq!((RING.read(&mut into), into), (2, *b"ab"));
    /// assert_eq!((RING.read(&mut into), into), (1, *b"cb"));
    /// ```
    pub fn read(&self, into: &mut [u8]) -> usize {
        let taken = self.taken.load(Ordering::Relaxed);
        let written = self.written.load(Ordering::Acquire);
        let counts = SplitCounts { written, taken };
        if !counts.is_sound(N) {
            return 0;
        }
        let lent = counts.queued(N, into.len());
        let (first, rest) = self.places(lent);
        let (into, more) = into.split_at_mut(first.len());
        for (place, byte) in first.iter().zip(into) {
            *byte = place.load(Ordering::Relaxed);
        }
        for (place, byte) in rest.iter().zip(more) {
            *byte = place.load(Ordering::Relaxed);
        }
        self.taken.store(lent.next, Ordering::Release);
        lent.span.count
    }

    /// The places of the bytes that are lent, in order: up to the storage's end, and from its beginning.
    fn places(&self, lent: SplitSpan) -> (&[AtomicU8], &[AtomicU8]) {
        let span = lent.span;
        let first = &self.storage[span.from..][..span.contiguous];
        (first, &self.storage[..span.count - span.contiguous])
    }
}

impl<const N: usize> Default for SplitRing<N> {
    fn default() -> Self {
        Self::new()
    }
}

impl<const N: usize> SplitWriter<'_, N> {
    /// Writes the first of these bytes, as many as there is room for, and returns how many.
    #[must_use]
    pub fn write(&mut self, data: &[u8]) -> usize {
        self.0.write(data)
    }

    /// Returns how many bytes there is room for in all.
    #[must_use]
    pub const fn capacity(&self) -> usize {
        N
    }

    /// Returns how many bytes are queued. At least `capacity - len` more can be written.
    #[must_use]
    pub fn len(&self) -> usize {
        self.0.len()
    }

    /// Returns whether no byte is queued.
    #[must_use]
    pub fn is_empty(&self) -> bool {
        self.0.is_empty()
    }
}

impl<const N: usize> SplitReader<'_, N> {
    /// Takes as many bytes as are queued and fit into `into`, and returns how many. The rest of `into` stays as it
    /// is.
    pub fn read(&mut self, into: &mut [u8]) -> usize {
        self.0.read(into)
    }

    /// Returns how many bytes there is room for in all.
    #[must_use]
    pub const fn capacity(&self) -> usize {
        N
    }

    /// Returns how many bytes are queued. At least as many can be read.
    #[must_use]
    pub fn len(&self) -> usize {
        self.0.len()
    }

    /// Returns whether no byte is queued.
    #[must_use]
    pub fn is_empty(&self) -> bool {
        self.0.is_empty()
    }
}
