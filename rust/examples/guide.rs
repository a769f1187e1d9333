//! The tasks of docs/GUIDE.md and docs/DIFFERENCES.md of the repository, which quote them: `cargo run --example guide --
//! TASK`, where TASK is ring, packets, receiver, numbers, sender, fragments, interrupt, sizes or faults.

fn ring() {
    use net_base::storage::RingBuffer;

    let mut storage = [0u8; 8];
    let mut ring = RingBuffer::new(&mut storage[..]);
    let taken = ring.enqueue_slice(b"hello, world"); // there is room for eight
    let mut into = [0; 5];
    let count = ring.dequeue_slice(&mut into);
    println!("took {taken}, read {}, {} left", into[..count].escape_ascii(), ring.len());
}

fn packets() {
    use net_base::storage::{PacketBuffer, PacketMetadata};

    // Two packets at most, of 64 bytes together; the header of each is a port.
    let (mut slots, mut bytes) = ([PacketMetadata::EMPTY; 2], [0u8; 64]);
    let mut queue = PacketBuffer::new(&mut slots[..], &mut bytes[..]);
    for (port, payload) in [(53, "query"), (80, "get"), (25, "mail")] {
        match queue.enqueue(payload.len(), port) {
            Ok(room) => room.copy_from_slice(payload.as_bytes()),
            Err(full) => println!("port {port}: {full}"),
        }
    }
    while let Ok((port, payload)) = queue.dequeue() {
        println!("port {port}: {}", payload.escape_ascii());
    }
}

fn receiver() {
    use net_base::receiver::Receiver;

    let mut storage = [0u8; 16];
    let mut receiver = Receiver::<2>::new(&mut storage[..]); // at most two ranges may wait
    let mut recent = [0; 2]; // where the newest ranges begin
    for (position, data) in [(0, "abcd"), (6, "gh"), (10, "kl"), (14, "op"), (4, "ef")] {
        if let Err(refused) = receiver.keep(position, data.as_bytes()) {
            println!("{data}: {refused}");
        }
        // What an acknowledgement of TCP says.
        let blocks: Vec<_> = receiver.newest_runs(position, &mut recent).collect();
        println!("next {}, window {}, SACK {blocks:?}", receiver.next(), receiver.window());
    }
    let mut into = [0; 16];
    let count = receiver.read(&mut into);
    println!("read {}, window {}", into[..count].escape_ascii(), receiver.window());
}

fn numbers() {
    use net_base::receiver::ReceiverOver;
    use net_base::sequence_number::{Numbering, SequenceNumber};

    // It owns 4,096 bytes, and at most eight ranges may wait.
    type Stream = ReceiverOver<[u8; 4_096], 8>;

    // Takes a segment whose first byte has the number `seq`. Returns what to acknowledge, and the window.
    fn on_segment(stream: &mut Stream, numbering: Numbering, seq: u32, data: &[u8]) -> (u32, u16) {
        let position = numbering.position(SequenceNumber::new(seq), stream.next());
        if let Err(refused) = stream.keep(position, data) {
            println!("{refused}"); // nothing changes: the acknowledgement tells the peer
        }
        let window = stream.window().min(65_535) as u16;
        (numbering.number(stream.next()).get(), window)
    }

    // A static made by `over` is all zeros, so it takes no flash. One made by `over_at` is not.
    let mut stream = Stream::over([0; 4_096]);
    // A connection begins, whose first byte has the number 7.
    stream.reset_at(Numbering::first_position());
    let numbering = Numbering { first: SequenceNumber::new(7) };
    println!("{:?}", on_segment(&mut stream, numbering, 10, b"def"));
    println!("{:?}", on_segment(&mut stream, numbering, 7, b"abc"));
}

fn sender() {
    use net_base::finite::SendBuffer;
    use net_base::storage::Run;

    let (mut storage, mut acked, mut sent) = ([0u8; 16], [Run::EMPTY; 4], [Run::EMPTY; 4]);
    let mut buffer = SendBuffer::new(&mut storage[..], &mut acked[..], &mut sent[..]);
    println!("took {}", buffer.write(b"hello, world"));
    // The peer sets no limit, and 8 bytes fit into a packet.
    while let Some(range) = buffer.next(u64::MAX, 8) {
        println!("send {range:?}: {}", buffer.bytes(range.clone()).front.escape_ascii());
        assert!(buffer.mark(range));
    }
    // The second packet is acknowledged, and the first one is lost.
    buffer.acknowledge(8..12).expect("it was sent");
    assert!(buffer.lose(0..8));
    println!("again {:?}", buffer.next(u64::MAX, 8));
}

fn interrupt() {
    use net_base::storage::SplitRing;

    static RECEIVED: SplitRing<64> = SplitRing::new();

    // The interrupt of a UART calls this. A byte for which there is no room is lost.
    fn on_byte(byte: u8) -> bool {
        RECEIVED.write(&[byte]) == 1
    }

    assert!(b"ping".iter().all(|&byte| on_byte(byte)));
    // The main loop.
    let mut into = [0; 16];
    let count = RECEIVED.read(&mut into);
    println!("received {}", into[..count].escape_ascii());
}

fn fragments() {
    use net_base::storage::FragmentBuffer;
    use net_base::time::{Duration, Instant};

    let (mut bytes, now) = ([0u8; 1_500], Instant::ZERO);
    let mut packet = FragmentBuffer::<4>::new(&mut bytes[..], now + Duration::from_secs(60));
    // The last fragment comes first.
    for (offset, data, is_last) in
        [(16, "end", true), (0, "12345678", false), (8, "abcdefgh", false)]
    {
        packet.add_fragment(offset, data.as_bytes(), is_last).expect("it fits");
        let whole = packet.assemble().map(|it| it.escape_ascii().to_string());
        println!("offset {offset}: {whole:?}");
    }
    // Overlapping fragments can be an attack: IPv6 drops the packet (RFC 5722). Ask before you add.
    println!("overlaps {}, differs {}", packet.overlaps(8, 4), packet.differs(8, b"EVIL"));
    println!("in time: {}", !packet.is_expired(now + Duration::from_secs(5)));
}

fn sizes() {
    use net_base::finite::{FiniteReceiver, SendBuffer, SendRanges, StreamRanges};
    use net_base::receiver::Receiver;
    use net_base::storage::{Assembler, PacketBuffer, PacketMetadata, RingBuffer};

    println!("Receiver {}", size_of::<Receiver<'_, 4>>());
    println!("FiniteReceiver {}", size_of::<FiniteReceiver<'_, 4>>());
    println!("Assembler {}", size_of::<Assembler<4>>());
    println!("RingBuffer {}", size_of::<RingBuffer<'_, u8>>());
    println!("PacketBuffer {}", size_of::<PacketBuffer<'_, u16>>());
    println!("PacketMetadata {}", size_of::<PacketMetadata<u16>>());
    println!("StreamRanges {}", size_of::<StreamRanges<'_>>());
    println!("SendRanges {}", size_of::<SendRanges<'_>>());
    println!("SendBuffer {}", size_of::<SendBuffer<'_>>());
}

fn faults() {
    use net_base::storage::{PacketBuffer, PacketMetadata}; // or smoltcp::storage

    let (mut slots, mut bytes) = ([PacketMetadata::EMPTY; 2], [0; 4]);
    let mut queue = PacketBuffer::new(&mut slots[..], &mut bytes[..]);
    queue.enqueue(2, "first").expect("it fits");
    queue.enqueue(1, "second").expect("it fits");
    queue.dequeue().expect("the first one");
    let before = queue.payload_bytes_count();
    let is_refused = queue.enqueue(2, "third").is_err();
    println!("refused {is_refused}, bytes {before} and {}", queue.payload_bytes_count());

    let (mut slots, mut bytes) = ([PacketMetadata::EMPTY; 1], [0; 2]);
    let mut queue = PacketBuffer::new(&mut slots[..], &mut bytes[..]);
    queue.enqueue(1, "first").expect("it fits");
    queue.dequeue().expect("the first one");
    println!("{:?}", queue.enqueue_with_infallible(2, "second", |room| room.len()));
}

fn main() {
    match std::env::args().nth(1).as_deref() {
        Some("ring") => ring(),
        Some("packets") => packets(),
        Some("receiver") => receiver(),
        Some("numbers") => numbers(),
        Some("sender") => sender(),
        Some("fragments") => fragments(),
        Some("interrupt") => interrupt(),
        Some("sizes") => sizes(),
        Some("faults") => faults(),
        _ => println!(
            "guide ring | packets | receiver | numbers | sender | fragments | interrupt | sizes | faults"
        ),
    }
}
