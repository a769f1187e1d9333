//! Traits of std that are by hand: a hash, sums, comparisons, conversions, counts of iterators, readers and writers.
//! Values are worked by hand.
#![allow(clippy::op_ref)]
use std::fmt::Write as _;
use std::hash::{Hash, Hasher};
use std::iter::FusedIterator;

use net_base::checksum::PartsSum;
use net_base::finite::FiniteError;
use net_base::managed::ManagedSlice;
use net_base::receiver::Receiver;
use net_base::scoreboard::Scoreboard;
use net_base::sequence_number::SequenceNumber;
use net_base::storage::{
    Assembler, FragmentError, RingBuffer, RingOver, Storage, TooManyHolesError,
};
use net_base::time::Duration;

/// A sequence number gives a hasher 32 bits.
#[test]
fn hashed_bytes() {
    #[derive(Default)]
    struct Kept(Vec<u8>);
    impl Hasher for Kept {
        fn write(&mut self, bytes: &[u8]) {
            self.0.extend(bytes);
        }

        fn finish(&self) -> u64 {
            0
        }
    }
    let mut kept = Kept::default();
    SequenceNumber::new(5).hash(&mut kept);
    assert_eq!(kept.0, 5u32.to_ne_bytes());
}

/// An index past the end of an array panics.
#[test]
fn arrays_as_storage() {
    let calls: [fn(&mut [u8; 3]); 4] = [
        |array| assert_eq!(*array.element(3), 0),
        |array| *array.element_mut(3) = 0,
        |array| assert_eq!(array.part(2, 4).len(), 1),
        |array| array.part_mut(2, 4).fill(0),
    ];
    for call in calls {
        assert!(std::panic::catch_unwind(|| call(&mut [0; 3])).is_err());
    }
}

/// A ring over any storage that is a slice behind its own type.
#[test]
fn storage_of_each_type() {
    fn wraps<S: Storage<u8>>(storage: S) {
        let mut ring = RingOver::over(storage);
        assert_eq!((ring.enqueue_slice(b"ab"), ring.capacity()), (2, 3));
        assert_eq!(ring.dequeue_one().copied(), Ok(b'a'));
        assert_eq!(ring.enqueue_slice(b"cde"), 2);
        assert!(ring.is_full() && ring.get_allocated(2, 9) == b"d");
        assert_eq!(ring.as_slices(), (&b"bc"[..], &b"d"[..]));
        assert_eq!((ring.iter().nth(2), ring.iter().len()), (Some(&b'd'), 3));
        assert_eq!(ring.dequeue_many(2), b"bc");
    }
    wraps([0; 3]);
    wraps(&mut [0; 3]);
    wraps(&mut [0; 3][..]);
    #[cfg(feature = "alloc")]
    {
        wraps(vec![0; 3]);
        wraps(&mut vec![0; 3]);
        wraps(Box::new([0; 3]));
        wraps(Box::<[u8]>::from([0; 3]));
        wraps(ManagedSlice::from(Box::new([0; 3])));
        wraps(ManagedSlice::from(Box::<[u8]>::from([0; 3])));
        wraps(ManagedSlice::from(&mut vec![0; 3]));
    }
    wraps(ManagedSlice::from(&mut [0; 3]));
}

#[test]
fn sums_of_lengths() {
    let lengths = [3, 4, 5].map(Duration::from_secs);
    assert_eq!(lengths.iter().sum::<Duration>(), Duration::from_secs(12));
    assert_eq!(lengths.into_iter().sum::<Duration>(), Duration::from_secs(12));
    assert_eq!([].iter().sum::<Duration>(), Duration::ZERO);
    let over = || [Duration::MAX, Duration::from_micros(1)].iter().sum::<Duration>();
    assert!(std::panic::catch_unwind(over).is_err());
}

#[test]
fn sequence_numbers() {
    let mut number = SequenceNumber::from(u32::MAX);
    assert_eq!(
        (number.to_string(), format!("{number:>11}")),
        ("4294967295".into(), " 4294967295".into())
    );
    number += 3;
    let last = number - 3;
    assert_eq!((u32::from(number), last), (2, SequenceNumber::new(u32::MAX)));
    assert_eq!((number - last, last - number), (3, u32::MAX - 2));
    number -= 2;
    assert_eq!((number, number - 0), (SequenceNumber::default(), SequenceNumber::new(0)));
}

#[test]
fn scoreboards() {
    let [mut one, mut other] = [(); 2].map(|()| Scoreboard::<4>::empty_at(5));
    assert!(one == other && one != Scoreboard::empty_at(6));
    assert_eq!((one.report(7..9, 20), other.report(7..8, 20)), (Ok(()), Ok(())));
    assert!(one != other);
    assert_eq!(other.report(8..9, 20), Ok(()));
    assert!(one == other);
    assert_eq!(other.report(12..14, 20), Ok(()));
    assert!(one != other);
    one.acknowledge(20);
    other.acknowledge(21);
    assert!(one != other);
}

#[test]
fn sums() {
    assert_eq!(PartsSum::default().with(b"ab"), PartsSum::new().with(b"ab"));
}

#[test]
fn errors() {
    let add = |offset| -> Result<(), FragmentError> { Ok(Assembler::<1>::empty().add(offset, 1)?) };
    assert_eq!(add(3), Ok(()));
    assert_eq!(FiniteError::from(TooManyHolesError), FiniteError::TooManyHoles);
    assert_eq!(FragmentError::from(TooManyHolesError), FragmentError::TooManyHoles);
}

/// How many an iterator says that it yields, and how many it does; after each element, one less.
fn counted(mut iter: impl ExactSizeIterator + FusedIterator) -> usize {
    let count = iter.len();
    for left in (0..count).rev() {
        assert!(iter.next().is_some());
        assert_eq!((iter.len(), iter.size_hint()), (left, (left, Some(left))));
    }
    assert!(iter.next().is_none() && iter.next().is_none());
    count
}

#[test]
fn counts() {
    let mut ring = RingOver::over([0u8; 4]);
    ring.enqueue_unallocated(3);
    ring.dequeue_allocated(3);
    ring.extend(*b"abc");
    let mut back = ring.iter();
    assert_eq!((back.next_back(), back.count()), (Some(&b'c'), 2));
    assert_eq!((&ring).into_iter().copied().collect::<Vec<_>>(), b"abc");
    // Of three elements one is at the storage's end, and two at its beginning.
    assert_eq!(
        (ring.as_slices().0.len(), counted(ring.iter()), counted(ring.iter().rev())),
        (1, 3, 3)
    );
    ring.extend(b"d");
    assert!(ring.iter().clone().eq(b"abcd"));
    let mut assembler = Assembler::<4>::empty();
    assert!(
        assembler.add(0, 2).is_ok() && assembler.add(5, 1).is_ok() && assembler.add(9, 1).is_ok()
    );
    assert_eq!((counted(assembler.iter_data()), counted(assembler.holes())), (3, 2));
    let texts = format!("{:?} {:?}", assembler.iter_data(), assembler.holes());
    assert_eq!(texts, "[(0, 2), (5, 6), (9, 10)] [(2, 5), (6, 9)]");
    let mut storage = [0; 16];
    let mut receiver = Receiver::<4>::new(&mut storage[..]);
    assert!(receiver.segment(2, b"c").is_ok() && receiver.segment(5, b"f").is_ok());
    assert_eq!(counted(receiver.held()), 2);
    assert_eq!(format!("{:?}", receiver.held()), "[(2, 3), (5, 6)]");
    assert_eq!(counted(receiver.newest_runs(5, &mut [0; 3])), 2);
    assert_eq!(counted(receiver.newest_runs(5, &mut [0; 1])), 1);
}

#[test]
fn elements_and_texts() {
    let mut ring = RingOver::over([0u8; 4]);
    assert!(ring.write_str("abc").is_ok() && ring.write_str("de").is_err());
    assert_eq!(
        (ring.len(), write!(ring, "{}", 7), ring.iter().next_back()),
        (3, Ok(()), Some(&b'7'))
    );
    let mut ring = RingOver::over([0u8; 4]);
    assert!(ring.write_str("abc").is_ok());
    ring.dequeue_allocated(2);
    assert!(ring.write_str("def").is_ok()); // round the end
    assert_eq!(ring.as_slices(), (&b"cd"[..], &b"ef"[..]));
    let mut numbers = [0; 3];
    let mut ring = RingBuffer::new(&mut numbers[..]);
    let extend = std::panic::AssertUnwindSafe(|| ring.extend([1, 2, 3, 4]));
    assert!(std::panic::catch_unwind(extend).is_err());
    assert_eq!(ring.into_iter().sum::<i32>(), 6);
}

#[cfg(feature = "std")]
mod streams {
    use net_base::finite::{FiniteReceiver, FiniteSender};
    use net_base::receiver::Receiver;
    use net_base::storage::RingOver;
    use std::fmt::Debug;
    use std::io::{self, BufRead, ErrorKind, Read, Write};

    /// Why a call is refused.
    fn refusal<T: Debug>(result: io::Result<T>) -> ErrorKind {
        result.expect_err("a refusal").kind()
    }

    /// What all readers do with `abcd`, which is queued and wraps, and then with nothing: all but one are refused then.
    fn reads(mut reader: impl BufRead, at_end: Option<ErrorKind>) {
        assert_eq!(reader.read(&mut []).unwrap(), 0);
        assert_eq!(reader.fill_buf().unwrap(), b"ab");
        reader.consume(1);
        assert_eq!(reader.fill_buf().unwrap(), b"b");
        let mut into = [0; 2];
        assert_eq!(reader.read(&mut into).unwrap(), 2);
        assert_eq!((&into, reader.fill_buf().unwrap()), (b"bc", &b"d"[..]));
        let mut text = String::new();
        let (line, text_after) = (reader.read_line(&mut text), "d");
        assert_eq!((line.map_err(|error| error.kind()).err(), &text[..]), (at_end, text_after));
        let (read, lent) = (reader.read(&mut into), reader.fill_buf().map(<[u8]>::len));
        for result in [read, lent] {
            assert_eq!(result.map_err(|error| error.kind()), at_end.map_or(Ok(0), Err));
        }
        assert_eq!(reader.read(&mut []).unwrap(), 0); // nothing is asked for: std's rule
        let consume = std::panic::AssertUnwindSafe(|| reader.consume(1));
        assert!(std::panic::catch_unwind(consume).is_err());
    }

    #[test]
    fn readers() {
        let mut ring = RingOver::over([0u8; 6]);
        assert_eq!((ring.enqueue_slice(b"----ab"), ring.dequeue_slice(&mut [0; 4])), (6, 4));
        assert_eq!(ring.enqueue_slice(b"cd"), 2);
        reads(ring, Some(ErrorKind::WouldBlock));
        let (mut one, mut other) = ([0; 6], [0; 6]);
        let mut receiver = Receiver::<4>::new(&mut one[..]);
        assert!(receiver.segment(0, b"----ab").is_ok() && receiver.read(&mut [0; 4]) == 4);
        assert!(receiver.segment(6, b"cd").is_ok());
        reads(receiver, Some(ErrorKind::WouldBlock));
        for is_last in [false, true] {
            let mut finite = FiniteReceiver::<4>::new_at(&mut other[..], 0);
            assert!(finite.keep(0, b"----ab", false).is_ok() && finite.read(&mut [0; 4]) == 4);
            assert!(finite.keep(6, b"cd", is_last).is_ok());
            reads(finite, if is_last { None } else { Some(ErrorKind::WouldBlock) });
        }
    }

    /// More bytes than 16 bits count are written and read at once.
    #[test]
    fn many_bytes() {
        let mut ring = RingOver::over([0u8; 70_000]);
        assert_eq!(ring.write(&[7; 70_000]).unwrap(), 70_000);
        assert_eq!(ring.read(&mut [0; 70_000]).unwrap(), 70_000);
    }

    /// A text whose middle is missing isn't read as if it ended there, and what came isn't lost.
    #[test]
    fn a_part_is_missing() {
        let mut storage = [0; 32];
        let mut receiver = FiniteReceiver::<4>::new_at(&mut storage[..], 0);
        let (mut text, mut copied) = (String::new(), Vec::new());
        assert_eq!(refusal(receiver.read_to_string(&mut text)), ErrorKind::WouldBlock);
        assert!(receiver.keep(0, b"GET /pay?sum=10", false).is_ok());
        assert!(receiver.keep(17, b"\n", true).is_ok()); // the end is known, and 15 and 16 are missing
        assert_eq!(refusal(receiver.read_to_string(&mut text)), ErrorKind::WouldBlock);
        assert_eq!(refusal(io::copy(&mut receiver, &mut copied)), ErrorKind::WouldBlock);
        assert_eq!(refusal(receiver.read_exact(&mut [0])), ErrorKind::WouldBlock);
        assert_eq!(refusal(receiver.fill_buf().map(<[u8]>::len)), ErrorKind::WouldBlock);
        assert!(receiver.keep(15, b"00", false).is_ok() && !receiver.has_read_all());
        assert_eq!(receiver.read_to_string(&mut text).unwrap(), 3);
        assert_eq!((&text[..], receiver.has_read_all()), ("GET /pay?sum=1000\n", true));
        assert_eq!(receiver.read_to_string(&mut text).unwrap(), 0);
        // An end that comes without bytes.
        receiver.reset_at(7);
        assert_eq!(refusal(receiver.fill_buf().map(<[u8]>::len)), ErrorKind::WouldBlock);
        assert!(receiver.keep(7, b"", true).is_ok());
        assert!(receiver.fill_buf().unwrap().is_empty());
        assert_eq!(receiver.lines().count(), 0);
    }

    #[test]
    fn writers() {
        let mut ring = RingOver::over([0u8; 4]);
        assert!(ring.write_all(b"abc").is_ok() && ring.flush().is_ok());
        assert_eq!(refusal(ring.write_all(b"de")), ErrorKind::WouldBlock);
        assert_eq!(ring.write(b"").unwrap(), 0);
        assert!(ring.flush().is_ok()); // nothing is waited for
        assert_eq!(ring.as_slices(), (&b"abcd"[..], &b""[..]));
        assert_eq!(RingOver::over([0u8; 0]).write(b"a").unwrap(), 0); // never, and not only for now
        let mut storage = [0; 4];
        let mut finite = FiniteSender::new_at(&mut storage[..], 0);
        let writer: &mut dyn Write = &mut finite;
        assert!(writer.write_all(b"abc").is_ok() && writer.flush().is_ok());
        assert_eq!((writer.write(b"de").unwrap(), writer.write(b"").unwrap()), (1, 0));
        assert_eq!(refusal(writer.write(b"e")), ErrorKind::WouldBlock);
        assert_eq!(finite.send_at(1, 10).bytes, b"bcd");
        // Room comes back with an acknowledgement, but not where a sender is closed.
        assert!(finite.acknowledge(1) && finite.write(b"e") == 1);
        finite.close();
        assert_eq!(refusal(Write::write(&mut finite, b"f")), ErrorKind::BrokenPipe);
        assert!(finite.acknowledge(4) && matches!(Write::write(&mut finite, b""), Ok(0)));
        assert_eq!(refusal(Write::write(&mut finite, b"f")), ErrorKind::BrokenPipe);
        // No position is left: nothing will be taken any more.
        let mut last = FiniteSender::new_at(&mut storage[..], u64::MAX - 2);
        assert_eq!((last.write(b"abc"), Write::write(&mut last, b"b").unwrap()), (1, 0));
        assert_eq!(refusal(last.write_all(b"b")), ErrorKind::WriteZero);
        // Nor is there storage.
        let mut finite = FiniteSender::new_at(&mut [][..], 0);
        assert_eq!(Write::write(&mut finite, b"a").unwrap(), 0);
    }
}

/// The whole contiguous part of a queue is lent, of any length.
#[test]
#[cfg(feature = "std")]
fn long_queues_are_lent_whole() {
    use net_base::finite::FiniteReceiver;
    use std::io::BufRead;
    let mut storage = [7; 5000];
    let mut ring = RingBuffer::new(&mut storage[..]);
    ring.enqueue_unallocated(5000);
    assert_eq!(ring.fill_buf().unwrap().len(), 5000);
    let mut receiver = Receiver::<4>::new_at(vec![0; 90_000], 0);
    assert_eq!(receiver.keep(0, &[7; 90_000]).unwrap().queued, 90_000);
    assert_eq!(receiver.fill_buf().unwrap().len(), 90_000);
    let mut finite = FiniteReceiver::<4>::new_at(vec![0; 90_000], 0);
    assert!(finite.keep(0, &[7; 90_000], false).is_ok());
    assert_eq!(finite.fill_buf().unwrap().len(), 90_000);
}

/// No conversion cuts storage, or the number of the first byte.
#[test]
#[cfg(feature = "alloc")]
fn nothing_is_cut() {
    use net_base::finite::SendBuffer;
    use net_base::managed::ManagedSlice;
    assert_eq!(ManagedSlice::from(vec![0u8; 70_000]).iter().count(), 70_000);
    assert_eq!(SendBuffer::new_at(vec![0; 4], vec![], vec![], 1 << 63).numbers_end(), 1 << 63);
}

/// A part of a vector that isn't there is refused.
#[test]
#[cfg(feature = "alloc")]
#[should_panic(expected = "range end index 9 out of range for slice of length 3")]
fn no_part_of_a_vector_is_cut() {
    Storage::part_mut(&mut vec![0u8; 3], 1, 9);
}
