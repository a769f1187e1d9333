//! The first line that a newcomer writes for each type. Before a line that isn't as expected there is the one that was:
//! rustc's text, or the page of the type, leads from it to the one that is right.
#![cfg(feature = "alloc")]
use net_base::checksum::checksum;
use net_base::finite::{FiniteReceiver, FiniteSender, SendBuffer, StreamReceiver};
use net_base::phy::{Loopback, Medium};
use net_base::rand::Rand;
use net_base::receiver::{Receiver, ReceiverOver};
use net_base::scoreboard::Scoreboard;
use net_base::sequence_number::SequenceNumber;
use net_base::storage::{
    Assembler, FragmentBuffer, PacketBuffer, PacketMetadata, RingBuffer, RingOver, Run, SplitRing,
};
use net_base::time::{Duration, Instant};

static RING: SplitRing<64> = SplitRing::new();

#[test]
fn queues() {
    let (mut storage, mut other) = ([0u8; 16], [0u8; 16]);
    assert_eq!(RingBuffer::new(&mut storage).enqueue_slice(b"abc"), 3);
    assert_eq!(RingBuffer::new(&mut storage[..]).enqueue_slice(b"abc"), 3);
    assert_eq!(RingBuffer::new(vec![0; 16]).enqueue_slice(b"abc"), 3);
    // RingBuffer::new([0; 16])
    // RingBuffer::<u8, 16>::new()
    assert_eq!(RingOver::over([0u8; 16]).enqueue_slice(b"abc"), 3);
    let mut slots = [PacketMetadata::EMPTY; 4];
    let mut queue = PacketBuffer::new(&mut slots[..], &mut other[..]);
    assert!(queue.enqueue(3, "header").is_ok());
    // let (writer, reader) = RING.split();
    assert_eq!((RING.write(b"abc"), RING.read(&mut [0; 8])), (3, 3));
    assert_eq!(SplitRing::<64>::new().split().0.write(b"abc"), 3);
}

#[test]
fn sets() {
    assert_eq!(Assembler::new().add(0, 10), Ok(()));
    assert_eq!(Assembler::<8>::default().add(0, 10), Ok(()));
    // Assembler::<8>::new()
    assert_eq!(Assembler::<8>::empty().add(0, 10), Ok(()));
    assert!(Scoreboard::new().report(4..8, 16).is_ok());
    // FragmentBuffer::<4>::new(vec![0; 16])
    let expires_at = Instant::ZERO + Duration::from_secs(60);
    assert!(FragmentBuffer::<4>::new(vec![0; 16], expires_at).add_fragment(0, b"a", true).is_ok());
}

#[test]
fn streams() {
    let mut storage = [0; 16];
    assert!(Receiver::<8>::new(&mut storage).keep(0, b"a").is_ok());
    // Receiver::new(&mut storage)
    let mut receiver: Receiver = Receiver::new(&mut storage);
    assert!(receiver.keep(0, b"a").is_ok());
    // Receiver::<8>::new([0; 1024])
    assert!(ReceiverOver::<_, 8>::over([0; 1024]).keep(0, b"a").is_ok());
    assert!(FiniteReceiver::<8>::new(vec![0; 16]).keep(0, b"a", true).is_ok());
    let mut receiver = StreamReceiver::new(vec![0; 16], vec![Run::EMPTY; 8]);
    assert!(receiver.keep(0, b"a", true).is_ok());
    // SendBuffer::new(&mut storage)
    assert_eq!(SendBuffer::new(&mut storage, vec![], vec![]).write(b"abc"), 3);
    assert_eq!(FiniteSender::new(vec![0; 16]).write(b"abc"), 3);
}

#[test]
fn others() {
    assert_eq!(SequenceNumber::from(7), SequenceNumber::new(7));
    assert_eq!(Instant::from_millis(7) + Duration::from_millis(1), Instant::from_millis(8));
    assert_ne!(Rand::new(7).rand_u32(), Rand::new(8).rand_u32());
    let _device = Loopback::new(Medium::Ethernet);
    // checksum::data(&[1, 2])
    assert_eq!(checksum(&[1, 2]), !0x0102);
}
