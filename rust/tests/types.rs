//! What the public types' traits give: clones, defaults, texts, constants, threads, lifetimes.
//! Values are written by hand.
use std::fmt::Debug;
use std::sync::Mutex;

use net_base::checksum::PartsSum;
use net_base::finite::{FiniteReceiver, FiniteSender, FiniteSenderOver};
use net_base::managed::ManagedSlice;
use net_base::phy::{
    Checksum, ChecksumCapabilities, DeviceCapabilities, Medium, PacketLoopback, PacketMeta,
    SegmentationCapabilities, IPV4_FRAGMENT_PAYLOAD_ALIGNMENT,
};
use net_base::rand::Rand;
use net_base::receiver::{Receiver, ReceiverOver};
use net_base::scoreboard::Scoreboard;
use net_base::sequence_number::SequenceNumber;
use net_base::storage::fragment_table::FragmentSlot;
use net_base::storage::{
    Assembler, FragmentBuffer, FragmentError, FragmentsOver, PacketBuffer, PacketMetadata,
    PacketsOver, RingBuffer, RingOver,
};
use net_base::time::{Duration, Instant};

fn debug(value: impl Debug) -> String {
    format!("{value:?}")
}

#[test]
fn texts_of_values() {
    assert_eq!(debug(Checksum::default()), "Both");
    assert_eq!(debug([Checksum::Rx, Checksum::Tx, Checksum::None]), "[Rx, Tx, None]");
    assert_eq!(debug(Medium::default()), "Ethernet");
    assert_eq!(
        debug(ChecksumCapabilities::ignored()),
        "ChecksumCapabilities { ipv4: None, udp: None, tcp: None, icmpv4: None, icmpv6: None }"
    );
    let text = debug(DeviceCapabilities::default());
    let start = "DeviceCapabilities { medium: Ethernet, max_transmission_unit: 0, max_burst_size: None, checksum: ";
    assert!(text.starts_with(start), "{text}");
    assert_eq!(
        debug(SegmentationCapabilities::default()),
        "SegmentationCapabilities { tcpv4: None, tcpv6: None }"
    );
    assert_eq!(debug(Rand::new(7)), "Rand { state: 7 }");
    assert_eq!(debug(SequenceNumber::new(7)), "SequenceNumber { number: 7 }");
    assert!(debug(PacketMeta::default()).starts_with("PacketMeta { id: 0"));
    assert_eq!(debug(Instant::from_micros(-7)), "Instant { micros: -7 }");
    assert_eq!(debug(Duration::from_micros(7)), "Duration { micros: 7 }");
    let (mut storage, bytes) = ([0; 8], b"ab");
    let mut receiver = Receiver::<4>::new(&mut storage[..]);
    assert_eq!(
        debug(receiver.segment(5, bytes)),
        "Ok(Kept { kept: 2, queued: 0, sack: [Some((5, 7)), None, None] })"
    );
    assert_eq!(debug(receiver.keep(0, bytes)), "Ok(KeptBytes { kept: 2, queued: 2 })");
    assert_eq!(debug(PacketMetadata::<u8>::EMPTY), "PacketMetadata { size: 0, header: None }");
    assert_eq!(debug(PartsSum::new()), "PartsSum { sum: 0, odd: false }");
}

/// Capacities and positions: not what is in storage.
#[test]
fn texts_of_what_stores() {
    let (mut bytes, mut slots) = ([9u8; 16], [PacketMetadata::<u8>::EMPTY; 3]);
    let mut fragments = FragmentBuffer::<2>::new(&mut bytes[..], Instant::from_secs(5));
    assert_eq!(fragments.add(4, b"ab"), Ok(()));
    assert_eq!(
        debug(&fragments),
        "FragmentBuffer { capacity: 16, total_size: None, expires_at: Instant { micros: 5000000 } }"
    );
    let mut fragments = FragmentBuffer::<4>::new(&mut bytes[..], Instant::from_secs(7));
    assert_eq!(fragments.set_total_size(9), Ok(()));
    assert_eq!(
        debug(&fragments),
        "FragmentBuffer { capacity: 16, total_size: Some(9), expires_at: Instant { micros: 7000000 } }"
    );
    let mut slot = FragmentSlot::<char, _, 2>::over([0; 4]);
    slot.key = Some('k');
    slot.buffer.reset(Instant::from_secs(5));
    assert_eq!(
        debug(slot),
        "FragmentSlot { key: Some('k'), buffer: FragmentBuffer { capacity: 4, total_size: None, expires_at: \
         Instant { micros: 5000000 } } }"
    );
    let mut queue = PacketBuffer::new(&mut slots[..], &mut bytes[..]);
    assert!(queue.enqueue(5, 1u8).is_ok());
    assert_eq!(
        debug(&queue),
        "PacketBuffer { packet_capacity: 3, slots_used: 1, payload_capacity: 16, payload_bytes_count: 5 }"
    );
    let mut receiver = Receiver::<2>::new_at(&mut bytes[..], 100);
    assert!(receiver.keep(103, b"d").is_ok() && receiver.keep(106, b"g").is_ok());
    assert_eq!(
        debug(&receiver),
        "Receiver { next: 100, len: 0, window: 16, held: [(103, 104), (106, 107)] }"
    );
    let mut receiver = FiniteReceiver::<2>::new_at(&mut bytes[..], 100);
    assert!(receiver.keep(100, b"abc", false).is_ok() && receiver.keep(105, b"f", true).is_ok());
    assert_eq!(receiver.read(&mut [0]), 1);
    assert_eq!(
        debug(&receiver),
        "FiniteReceiver { next: 103, len: 2, window: 14, held: [(105, 106)], end: Some(106) }"
    );
    let mut sender = FiniteSender::new_at(&mut bytes[..], 100);
    assert_eq!(sender.write(b"abc"), 3);
    assert_eq!(
        debug(&sender),
        "FiniteSender { first_number: 100, numbers_end: 103, is_closed: false }"
    );
    sender.close();
    assert_eq!(
        debug(&sender),
        "FiniteSender { first_number: 100, numbers_end: 104, is_closed: true }"
    );
    let mut scoreboard = Scoreboard::<2>::empty();
    scoreboard.acknowledge(10);
    assert_eq!(scoreboard.report(12..14, 20), Ok(()));
    assert_eq!(scoreboard.report(16..18, 20), Ok(()));
    assert_eq!(
        debug(&scoreboard),
        "Scoreboard { first_unreported: 10, reported: [(12, 14), (16, 18)] }"
    );
    assert_eq!(debug(ManagedSlice::from(&mut [1u8, 2])), "Borrowed([1, 2])");
}

/// As smoltcp's: holes and data in turn, each by its size; unused runs are 0.
#[test]
fn texts_of_assemblers() {
    let (mut two, mut front) = (Assembler::<3>::empty(), Assembler::<1>::empty());
    assert_eq!((two.add(4, 2), two.add(9, 3), front.add(0, 20)), (Ok(()), Ok(()), Ok(())));
    assert_eq!(
        format!("{two:?}"),
        "Assembler { contigs: [Contig { hole_size: 4, data_size: 2 }, Contig { hole_size: 3, data_size: 3 }, \
         Contig { hole_size: 0, data_size: 0 }] }"
    );
    assert_eq!(
        format!("{front:?}"),
        "Assembler { contigs: [Contig { hole_size: 0, data_size: 20 }] }"
    );
    assert_eq!(
        format!("{front:#?}"),
        "Assembler {\n    contigs: [\n        Contig {\n            hole_size: 0,\n            data_size: 20,\n        \
         },\n    ],\n}"
    );
    assert_eq!(
        format!("{front:02?}"),
        "Assembler { contigs: [Contig { hole_size: 00, data_size: 20 }] }"
    );
    assert_eq!((two.to_string(), front.to_string()), ("[ (4) 2 (3) 3 ]".into(), "[ 20 ]".into()));
    assert_eq!(Assembler::new().to_string(), "[ ]");
    assert_eq!(format!("{two:>40}|{two:+}|{two:.3}"), ["[ (4) 2 (3) 3 ]"; 3].join("|"));
}

#[test]
fn clones_and_defaults() {
    assert_eq!((Duration::default(), PacketMeta::default().id), (Duration::ZERO, 0));
    let mut device = DeviceCapabilities::default();
    device.max_transmission_unit = 99;
    device.checksum.udp = Checksum::Tx;
    device.max_burst_size = Some(3);
    assert_eq!(debug(device.clone()), debug(&device));
    let mut assembler = Assembler::<2>::default();
    assert!(assembler.is_empty() && assembler.add(3, 4).is_ok());
    let copy = assembler.clone();
    assert_eq!(assembler.add(9, 1), Ok(()));
    assert_eq!(
        (copy.to_string(), assembler.to_string()),
        ("[ (3) 4 ]".into(), "[ (3) 4 (2) 1 ]".into())
    );
    let mut scoreboard = Scoreboard::<2>::default();
    assert!(!scoreboard.contains(0) && scoreboard.report(3..5, 9).is_ok());
    let copy = scoreboard.clone();
    scoreboard.acknowledge(9);
    assert!(!copy.contains(5) && copy.contains(4) && scoreboard.contains(5));
    let slot = PacketMetadata::<String>::EMPTY.clone();
    assert_eq!(debug(slot), "PacketMetadata { size: 0, header: None }");
}

/// What can be called where a constant is made.
#[test]
fn constants() {
    const ASSEMBLER: Assembler<3> = Assembler::empty();
    const FOUR: Assembler = Assembler::new();
    const SCOREBOARD: Scoreboard<3> = Scoreboard::empty();
    const RAND: Rand = Rand::new(3);
    const NUMBER: u32 = SequenceNumber::new(7).get();
    const MOMENTS: [Instant; 3] =
        [Instant::from_micros_const(1), Instant::from_millis_const(1), Instant::ZERO];
    const LENGTHS: [Duration; 4] =
        [Duration::from_micros(1), Duration::from_millis(1), Duration::from_secs(1), Duration::MAX];
    const PARTS: [i64; 5] = {
        let it = Instant::from_micros_const(1_234_567);
        [it.total_micros(), it.total_millis(), it.secs(), it.millis(), it.micros()]
    };
    const LENGTH_PARTS: [u64; 5] = {
        let it = Duration::from_micros(1_234_567);
        [it.total_micros(), it.total_millis(), it.secs(), it.millis(), it.micros()]
    };
    const FITS: [bool; 2] = [Receiver::<4>::fits(u64::MAX, 0), Receiver::<4>::fits(u64::MAX, 1)];
    static SLOTS: [PacketMetadata<u8>; 2] = [PacketMetadata::EMPTY; 2];
    static RING: Mutex<RingOver<u8, [u8; 4]>> = Mutex::new(RingOver::over([7; 4]));
    static QUEUE: Mutex<PacketsOver<u8, [PacketMetadata<u8>; 2], [u8; 9]>> =
        Mutex::new(PacketsOver::over([PacketMetadata::EMPTY; 2], [0; 9]));
    static RECEIVER: Mutex<ReceiverOver<[u8; 8], 2>> = Mutex::new(ReceiverOver::over_at([0; 8], 5));
    static SENDER: Mutex<FiniteSenderOver<[u8; 8]>> =
        Mutex::new(FiniteSenderOver::over_at([0; 8], 5));
    static FRAGMENTS: Mutex<FragmentsOver<[u8; 8], 2>> =
        Mutex::new(FragmentsOver::over([0; 8], Instant::ZERO));
    let mut ring = RING.lock().unwrap();
    assert_eq!(ring.enqueue_slice(&[1, 2, 3, 4, 5]), 4);
    assert_eq!(ring.as_slices(), (&[1, 2, 3, 4][..], &[][..]));
    let mut queue = QUEUE.lock().unwrap();
    assert!(queue.enqueue(9, 1).is_ok() && queue.dequeue() == Ok((1, &mut [0; 9][..])));
    let mut receiver = RECEIVER.lock().unwrap();
    assert!(receiver.segment(6, b"b").is_ok() && receiver.next() == 5);
    let mut sender = SENDER.lock().unwrap();
    assert_eq!((sender.write(b"ab"), sender.numbers_end()), (2, 7));
    assert_eq!(FRAGMENTS.lock().unwrap().add(7, b"ab"), Err(FragmentError::TooLong));
    assert!(ASSEMBLER.is_empty() && FOUR.is_empty() && !SCOREBOARD.contains(0) && SLOTS.len() == 2);
    assert_eq!((RAND.state(), NUMBER), (3, 7));
    assert_eq!(MOMENTS.map(|it| it.total_micros()), [1, 1_000, 0]);
    assert_eq!(LENGTHS.map(|it| it.total_micros()), [1, 1_000, 1_000_000, u64::MAX]);
    assert_eq!((PARTS, FITS), ([1_234_567, 1_234, 1, 234, 234_567], [true, false]));
    assert_eq!(LENGTH_PARTS, [1_234_567, 1_234, 1, 234, 234_567]);
    assert_eq!(IPV4_FRAGMENT_PAYLOAD_ALIGNMENT, 8);
}

/// A type can be sent to other threads, and shared with them, if what it holds can.
#[test]
fn threads() {
    fn both<T: Send + Sync>() {}
    both::<ManagedSlice<'_, u8>>();
    both::<RingBuffer<'_, u32>>();
    both::<PacketBuffer<'_, u32>>();
    both::<PacketMetadata<u32>>();
    both::<Assembler<9>>();
    both::<FragmentBuffer<'_, 4>>();
    both::<Receiver<'_, 4>>();
    both::<FiniteReceiver<'_, 4>>();
    both::<FiniteSender<'_>>();
    both::<Scoreboard<4>>();
    both::<(Rand, SequenceNumber, Instant, Duration, DeviceCapabilities, PacketMeta)>();
    both::<PartsSum>();
    both::<PacketLoopback<'_>>();
    fn sent<T: Send>() {}
    sent::<RingBuffer<'_, std::cell::Cell<u8>>>();
}

/// What is lent for longer serves where it is wanted for a shorter time.
#[test]
fn lifetimes() {
    type All<'s> = (
        (RingBuffer<'s, u8>, PacketBuffer<'s, u8>, FragmentBuffer<'s>, ManagedSlice<'s, u8>),
        (Receiver<'s>, FiniteReceiver<'s>, FiniteSender<'s>, PacketLoopback<'s>),
    );
    fn shorter<'s>(it: All<'static>, _: &'s u8) -> All<'s> {
        it
    }
    let _it_compiles = shorter;
    // A part that a closure was lent may live as long as the ring was lent.
    let mut storage = [1u8, 2, 3];
    let mut ring = RingBuffer::new(&mut storage[..]);
    let (count, part) = ring.enqueue_many_with(|part| (part.len(), part));
    part[0] = 9;
    assert_eq!((count, ring.iter().next()), (3, Some(&9)));
    let (mut slots, mut storage) = ([PacketMetadata::EMPTY; 2], [1u8, 2, 3]);
    let mut queue = PacketBuffer::new(&mut slots[..], &mut storage[..]);
    let mut kept = None;
    let enqueued = queue.enqueue_with_infallible(3, (), |part| {
        part[1] = 8;
        kept.insert(part).len()
    });
    assert_eq!((enqueued, kept), (Ok(3), Some(&mut [1, 8, 3][..])));
}
