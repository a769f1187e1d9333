//! Transfers over a path that loses and delays packets, between two endpoints of quinn's tests. `run.sh` makes it a
//! module of these, in quinn as it is and over net-base. Each transfer prints its time, by the tests' clock, how many
//! packets the client sent, and how many of them quinn found lost.

use std::{collections::VecDeque, ops::Range};

use super::*;

type Packet = (Instant, Option<EcnCodepoint>, BytesMut);

/// One direction of a path: of a hundred packets so many are lost or late, and 30 of those of a burst are lost.
struct Path {
    loss: u64,
    late: u64,
    burst: Range<u64>,
    packets: u64,
    random: u64,
}

impl Path {
    fn random_below(&mut self, end: u64) -> u64 {
        self.random ^= self.random << 13;
        self.random ^= self.random >> 7;
        self.random ^= self.random << 17;
        (self.random >> 11) % end
    }

    /// Loses and delays some of the packets that were put on the way behind the first `count`.
    fn spoil(&mut self, on_the_way: &mut VecDeque<Packet>, count: usize) {
        for mut packet in on_the_way.split_off(count) {
            self.packets += 1;
            let loss = if self.burst.contains(&self.packets) { 30 } else { self.loss };
            if self.random_below(100) < loss {
                continue;
            }
            if self.random_below(100) < self.late {
                packet.0 += Duration::from_millis(1 + self.random_below(8));
            }
            on_the_way.push_back(packet);
        }
        on_the_way.make_contiguous().sort_by_key(|packet| packet.0);
    }
}

/// A stream that the client writes and the server reads.
struct Stream {
    id: StreamId,
    data: Vec<u8>,
    written: usize,
    is_closed: bool,
    read: usize,
    is_read: bool,
}

impl Stream {
    fn new(id: StreamId, number: usize, size: usize) -> Self {
        let byte = |pos: usize| (pos as u32).wrapping_mul(0x9e37_79b1).wrapping_add(77 * number as u32);
        let data = (0..size).map(|pos| byte(pos).to_be_bytes()[1]).collect();
        Stream { id, data, written: 0, is_closed: false, read: 0, is_read: false }
    }

    /// Writes what quinn takes, 5,000 bytes at a time, and then ends the stream.
    fn write(&mut self, pair: &mut Pair, client: ConnectionHandle) {
        while self.written < self.data.len() {
            let end = self.data.len().min(self.written + 5000);
            match pair.client_send(client, self.id).write(&self.data[self.written..end]) {
                Ok(count) => self.written += count,
                Err(_) => return,
            }
        }
        if !self.is_closed {
            pair.client_send(client, self.id).finish().unwrap();
            self.is_closed = true;
        }
    }

    /// Reads all that can be read, and compares it.
    fn read(&mut self, pair: &mut Pair, server: ConnectionHandle) {
        if self.is_read {
            return;
        }
        let mut stream = pair.server_recv(server, self.id);
        let Ok(mut chunks) = stream.read(true) else { return };
        while let Ok(next) = chunks.next(usize::MAX) {
            let Some(chunk) = next else {
                assert_eq!(self.read, self.data.len());
                self.is_read = true;
                break;
            };
            assert_eq!(chunk.offset, self.read as u64);
            assert!(self.data[self.read..].starts_with(&chunk.bytes), "another byte than was written");
            self.read += chunk.bytes.len();
        }
        let _ = chunks.finalize();
    }
}

/// Of a path there and back, of how many streams, and how many bytes each.
struct Case {
    name: &'static str,
    loss: u64,
    late: u64,
    burst: Range<u64>,
    streams: usize,
    size: usize,
}

impl Case {
    fn run(&self, seed: u64) {
        let mut config = EndpointConfig::default();
        config.rng_seed(Some([seed as u8; 32]));
        let mut pair = Pair::new(Arc::new(config), server_config());
        let (client, server) = pair.connect();
        pair.latency = Duration::from_millis(10);
        let Case { loss, late, burst, .. } = self;
        let random = 7919 * seed + 1;
        let mut there = Path { loss: *loss, late: *late, burst: burst.clone(), packets: 0, random };
        let mut back = Path { loss: *loss, late: *late, burst: 0..0, packets: 0, random: !random };
        let mut open = |number| {
            let id = pair.client_streams(client).open(Dir::Uni).unwrap();
            Stream::new(id, number, self.size)
        };
        let mut streams: Vec<_> = (0..self.streams).map(&mut open).collect();
        let begun = pair.time;
        let mut acknowledged = 0;
        loop {
            assert!(pair.time - begun < Duration::from_secs(600), "it stalls");
            streams.iter_mut().for_each(|stream| stream.write(&mut pair, client));
            let count = pair.server.inbound.len();
            pair.drive_client();
            there.spoil(&mut pair.server.inbound, count);
            let count = pair.client.inbound.len();
            pair.drive_server();
            back.spoil(&mut pair.client.inbound, count);
            streams.iter_mut().for_each(|stream| stream.read(&mut pair, server));
            while let Some(event) = pair.client_conn_mut(client).poll() {
                match event {
                    Event::Stream(StreamEvent::Finished { .. }) => acknowledged += 1,
                    Event::ConnectionLost { reason } => panic!("the connection is lost: {reason}"),
                    _ => {}
                }
            }
            if acknowledged == self.streams && streams.iter().all(|stream| stream.is_read) {
                break;
            }
            let wakeups = [pair.client.next_wakeup(), pair.server.next_wakeup()];
            if let Some(next) = wakeups.into_iter().flatten().min() {
                pair.time = pair.time.max(next);
            }
        }
        let (taken, lost) = (pair.time - begun, pair.client_conn_mut(client).lost_packets());
        println!("lossy|{}|{seed}|{}|{}|{lost}", self.name, taken.as_millis(), there.packets);
    }
}

macro_rules! cases {
    ($($name:ident: $text:literal, $loss:literal, $late:literal, $burst:expr, $streams:literal, $size:expr;)*) => {$(
        #[test]
        fn $name() {
            let (loss, late) = ($loss, $late);
            let case = Case { name: $text, loss, late, burst: $burst, streams: $streams, size: $size };
            (1..=3).for_each(|seed| case.run(seed));
        }
    )*};
}

cases! {
    clean: "1 MiB, clean", 0, 0, 0..0, 1, 1 << 20;
    one_lost: "4 MiB, 1 % lost", 1, 0, 0..0, 1, 4 << 20;
    five_late: "4 MiB, 5 % late", 0, 5, 0..0, 1, 4 << 20;
    five_lost: "2 MiB, 5 % lost, 5 % late", 5, 5, 0..0, 1, 2 << 20;
    ten_lost: "1 MiB, 10 % lost, 10 % late", 10, 10, 0..0, 1, 1 << 20;
    burst: "4 MiB, 30 % of packets 1,000 to 1,999 lost", 0, 0, 1000..2000, 1, 4 << 20;
    tail: "1 MiB, 30 % of packets from the 500th on lost", 0, 0, 500..2000, 1, 1 << 20;
    streams: "8 streams of 256 KiB, 3 % lost, 3 % late", 3, 3, 0..0, 8, 1 << 18;
    streams_burst: "8 of 512 KiB, 1 % late, 30 % of packets 800 to 1,799 lost", 0, 1, 800..1800, 8, 1 << 19;
}
