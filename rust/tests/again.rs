//! What a storage has after calls, and slots of a table of fragments that begin again.
use net_base::finite::{FiniteReceiver, FiniteSender};
use net_base::receiver::Receiver;
use net_base::storage::fragment_table::{
    accept, remove_expired, take_complete, AcceptError, FragmentSlot,
};
use net_base::storage::{PacketBuffer, PacketMetadata, RingBuffer};
use net_base::time::Instant;

/// A packet keeps its slot. Another one takes a free slot, or else that of the packet that expires first.
#[test]
fn slots_of_a_table_of_fragments() {
    let (mut first, mut second) = ([0; 4], [0; 4]);
    let mut slots: [FragmentSlot<u8, &mut [u8], 1>; 2] =
        [FragmentSlot::over(&mut first[..]), FragmentSlot::over(&mut second[..])];
    let begin = |slots: &mut [_], key, until| {
        accept(slots, key, 0, b"a", false, Instant::from_micros(until))
    };
    assert_eq!([7, 8, 7].map(|key| begin(&mut slots, key, 20)), [Ok(0), Ok(1), Ok(0)]);
    assert_eq!(begin(&mut slots, 9, 9), Ok(0));
    assert_eq!(begin(&mut slots, 6, 30), Ok(0));
    assert_eq!(slots.each_ref().map(|slot| slot.key), [Some(6), Some(8)]);
    remove_expired(&mut slots, Instant::from_micros(20));
    assert_eq!(slots.each_ref().map(|slot| slot.key), [Some(6), Some(8)]);
    remove_expired(&mut slots, Instant::from_micros(21));
    assert_eq!(slots.each_ref().map(|slot| slot.key), [Some(6), None]);
    assert_eq!([(0, 1), (4, 0)].map(|(at, len)| slots[1].buffer.get(at, len).is_some()), [true; 2]);
    for (at, len) in [(0, 2), (1, 1), (4, 1), (5, 0), (1, usize::MAX)] {
        assert_eq!(slots[1].buffer.get(at, len), None);
    }
    assert_eq!(begin(&mut slots, 5, 40), Ok(1));
    assert_eq!((take_complete(&mut slots, 5), take_complete(&mut slots, 8)), (None, None));
    let mut more = |at, data: &[u8]| accept(&mut slots, 5, at, data, at == 1, Instant::ZERO);
    assert_eq!(
        (more(1, b""), more(0, b"c")),
        (Err(AcceptError::NoBytes), Err(AcceptError::OtherBytes))
    );
    assert_eq!(more(1, b"b"), Ok(1));
    assert_eq!(take_complete(&mut slots, 5), Some(1));
    assert_eq!((slots[1].key, slots[1].buffer.assemble()), (None, Some(&b"ab"[..])));
    assert_eq!(begin(&mut slots[..0], 5, 40), Err(AcceptError::NoSlot));
}

/// Returns what is left of eight bytes `.` after they were a storage.
fn left_by(calls: impl FnOnce(&mut [u8])) -> [u8; 8] {
    let mut storage = *b"........";
    calls(&mut storage);
    storage
}

#[test]
fn storage_is_written_only_where_bytes_are_kept() {
    let ring = left_by(|storage| {
        let mut ring = RingBuffer::new(storage);
        assert_eq!(ring.enqueue_slice(b"abcdefg"), 7);
        ring.dequeue_allocated(3);
        assert_eq!((ring.enqueue_slice(b"hi"), ring.dequeue_slice(&mut [0; 2])), (2, 2));
    });
    assert_eq!(&ring, b"ibcdefgh");
    let packets = left_by(|storage| {
        let mut slots = [PacketMetadata::EMPTY; 4];
        let mut queue = PacketBuffer::new(&mut slots[..], storage);
        assert!(queue.push_slice(1, b"abc").is_ok() && queue.push_slice(2, b"def").is_ok());
        assert!(queue.dequeue().is_ok() && queue.push_slice(3, b"ghi").is_ok());
    });
    assert_eq!(&packets, b"ghidef..");
    let receiver = left_by(|storage| {
        let mut receiver: Receiver<1> = Receiver::new(storage);
        assert!(receiver.segment(0, b"ab").is_ok() && receiver.segment(4, b"e").is_ok());
        assert!(receiver.segment(6, b"g").is_err());
        assert_eq!((receiver.read(&mut [0; 2]), receiver.segment(10, b"xyz").is_ok()), (2, true));
        receiver.reset_at(7);
    });
    assert_eq!(&receiver, b"ab..e...");
    let finite = left_by(|storage| {
        let mut finite: FiniteReceiver<1> = FiniteReceiver::new_at(storage, 0);
        assert!(finite.keep(0, b"ab", false).is_ok() && finite.keep(4, b"e", true).is_ok());
        assert!(finite.keep(6, b"g", true).is_err() && finite.keep(4, b"fg", false).is_ok());
        assert_eq!(finite.read(&mut [0; 2]), 2);
    });
    assert_eq!(&finite, b"ab..f...");
    let ending = left_by(|storage| {
        let mut ending: FiniteSender = FiniteSender::new_at(storage, 0);
        assert!(ending.write(b"abc") == 3 && ending.mark_sent(2) && ending.acknowledge(2));
        assert_eq!(ending.write(b"de"), 2);
        ending.close();
        assert_eq!(ending.write(b"f"), 0);
    });
    assert_eq!(&ending, b"abcde...");
}
