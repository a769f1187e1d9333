//! The other end: it makes and reads packets by code of its own.
use net_base::time::{Duration, Instant};

use crate::tcp::{Endpoint, State};
use crate::wire::{End, Ends, Segment};

pub const HERE: End = ([10, 77, 0, 2], 5001);
pub const THERE: End = ([10, 77, 0, 1], 40_000);
/// The number of the endpoint's SYN, and of the peer's: both streams wrap soon.
pub const INITIAL: u32 = 0xffff_fff0;
pub const PEER: u32 = 0xffff_fe00;

pub const FIN: u8 = 1;
pub const SYN: u8 = 2;
pub const RST: u8 = 4;
pub const ACK: u8 = 16;

/// Options of a SYN: an MSS of 1000, a scale of 2, and that blocks are understood.
pub const OPTIONS: &[u8] = &[2, 4, 3, 232, 1, 3, 3, 2, 1, 1, 4, 2];

#[derive(Clone, Debug, Default, PartialEq)]
pub struct Packet {
    pub number: u32,
    pub acknowledged: u32,
    pub flags: u8,
    pub window: u16,
    pub options: Vec<u8>,
    pub payload: Vec<u8>,
}

/// The sum of the words of some bytes, with the carries added at the low end.
fn sum(bytes: &[u8]) -> u16 {
    let mut sum = 0;
    for (at, byte) in bytes.iter().enumerate() {
        sum += u32::from(*byte) << (8 * (1 - at % 2));
        sum = sum % 0x1_0000 + sum / 0x1_0000;
    }
    sum as u16
}

fn pseudo_header(from: [u8; 4], to: [u8; 4], tcp: &[u8]) -> Vec<u8> {
    [&from[..], &to, &[0, 6], &(tcp.len() as u16).to_be_bytes(), tcp].concat()
}

/// Returns a packet from the peer with its checksums.
pub fn sealed(mut bytes: Vec<u8>) -> Vec<u8> {
    for (at, from) in [(10, 0), (36, 20)] {
        bytes[at..at + 2].fill(0);
        let part = if from == 0 {
            bytes[..20].into()
        } else {
            pseudo_header(THERE.0, bytes[16..20].try_into().unwrap(), &bytes[20..])
        };
        let checksum = !sum(&part);
        bytes[at..at + 2].copy_from_slice(&checksum.to_be_bytes());
    }
    bytes
}

impl Packet {
    /// Returns the bytes of the packet, from the peer.
    pub fn bytes(&self) -> Vec<u8> {
        assert_eq!(self.options.len() % 4, 0);
        let mut bytes = vec![0x45, 0];
        bytes.extend((40 + self.options.len() as u16 + self.payload.len() as u16).to_be_bytes());
        bytes.extend([0, 7, 0x40, 0, 64, 6, 0, 0]);
        bytes.extend(THERE.0);
        bytes.extend(HERE.0);
        bytes.extend(THERE.1.to_be_bytes());
        bytes.extend(HERE.1.to_be_bytes());
        bytes.extend(self.number.to_be_bytes());
        bytes.extend(self.acknowledged.to_be_bytes());
        bytes.extend([(20 + self.options.len() as u8) / 4 * 16, self.flags]);
        bytes.extend(self.window.to_be_bytes());
        bytes.extend([0; 4]);
        bytes.extend(&self.options);
        bytes.extend(&self.payload);
        sealed(bytes)
    }

    /// Reads a packet of the endpoint, which must be sound.
    pub fn read(bytes: &[u8]) -> Packet {
        let word = |at| u16::from_be_bytes([bytes[at], bytes[at + 1]]);
        let long = |at| u32::from(word(at)) << 16 | u32::from(word(at + 2));
        assert_eq!((bytes[0], bytes[9], usize::from(word(2))), (0x45, 6, bytes.len()));
        assert_eq!((&bytes[12..16], &bytes[16..20]), (&HERE.0[..], &THERE.0[..]));
        assert_eq!((word(20), word(22)), (HERE.1, THERE.1));
        assert_eq!(sum(&bytes[..20]), 0xffff, "the header's checksum");
        assert_eq!(sum(&pseudo_header(HERE.0, THERE.0, &bytes[20..])), 0xffff, "the checksum");
        let header = 20 + usize::from(bytes[32] >> 4) * 4;
        Packet {
            number: long(24),
            acknowledged: long(28),
            flags: bytes[33],
            window: word(34),
            options: bytes[40..header].to_vec(),
            payload: bytes[header..].to_vec(),
        }
    }

    /// Returns the value of an option.
    pub fn option(&self, kind: u8) -> Option<&[u8]> {
        let mut rest = &self.options[..];
        while let [first, after @ ..] = rest {
            if *first == 1 {
                rest = after;
                continue;
            }
            let (option, after) = rest.split_at(after[0].into());
            if *first == kind {
                return Some(&option[2..]);
            }
            rest = after;
        }
        None
    }

    /// Returns the blocks, counted from the peer's first byte.
    pub fn blocks(&self) -> Vec<(u32, u32)> {
        let from = |at: &[u8]| {
            u32::from_be_bytes(at.try_into().unwrap()).wrapping_sub(PEER.wrapping_add(1))
        };
        let blocks = self.option(5).unwrap_or(&[]).chunks_exact(8);
        blocks.map(|block| (from(&block[..4]), from(&block[4..]))).collect()
    }

    /// How many of the endpoint's bytes are before the packet's first one.
    pub fn at(&self) -> u32 {
        self.number.wrapping_sub(INITIAL.wrapping_add(1))
    }

    /// How many of the peer's bytes are acknowledged, and the FIN.
    pub fn acked(&self) -> u32 {
        self.acknowledged.wrapping_sub(PEER.wrapping_add(1))
    }

    pub fn with(mut self, flags: u8) -> Packet {
        self.flags |= flags;
        self
    }

    pub fn text(mut self, payload: &[u8]) -> Packet {
        self.payload = payload.to_vec();
        self
    }

    /// Announces a window, in its units.
    pub fn window(mut self, window: u16) -> Packet {
        self.window = window;
        self
    }

    /// Reports blocks, counted from the endpoint's first byte.
    pub fn report(mut self, blocks: &[(u32, u32)]) -> Packet {
        self.options = vec![1, 1, 5, 2 + 8 * blocks.len() as u8];
        let numbers = blocks.iter().flat_map(|block| [block.0, block.1]);
        for number in numbers.map(|at| INITIAL.wrapping_add(1).wrapping_add(at)) {
            self.options.extend(number.to_be_bytes());
        }
        self
    }
}

impl Packet {
    /// Adds the peer's clock, and what it echoes.
    pub fn times(mut self, value: u32, echoed: u32) -> Packet {
        self.options.extend([1, 1, 8, 10]);
        self.options.extend([value, echoed].map(u32::to_be_bytes).concat());
        self
    }
}

/// A packet after `at` of the peer's bytes, which acknowledges `acked` of the endpoint's.
pub fn peer(at: u32, acked: u32) -> Packet {
    Packet {
        number: PEER.wrapping_add(1).wrapping_add(at),
        acknowledged: INITIAL.wrapping_add(1).wrapping_add(acked),
        flags: ACK,
        window: 0x4000,
        ..Packet::default()
    }
}

/// The peer's SYN.
pub fn syn(options: &[u8]) -> Packet {
    Packet {
        number: PEER,
        flags: SYN,
        window: 0xffff,
        options: options.into(),
        ..Packet::default()
    }
}

/// An endpoint, and a clock.
pub struct Talk<const N: usize> {
    pub endpoint: Endpoint<N>,
    pub now: Instant,
}

impl<const N: usize> Talk<N> {
    pub fn new(listens: bool, capacity: usize) -> Talk<N> {
        let ends = Ends { here: HERE, there: if listens { ([0; 4], 0) } else { THERE } };
        let mut endpoint = Endpoint::new(ends, listens, INITIAL, capacity);
        // What is written is sent at once, and a test may wait for long.
        endpoint.sending.set_nagle_enabled(false);
        endpoint.options.gives_up = Duration::from_secs(86_400);
        Talk { endpoint, now: Instant::from_secs(5) }
    }

    /// An open connection, 1 ms after the handshake.
    pub fn open(capacity: usize, options: &[u8]) -> Talk<N> {
        let mut talk = Talk::new(true, capacity);
        assert_eq!(talk.say(&syn(options)), []);
        assert_eq!(talk.wait(0).len(), 1);
        assert_eq!(talk.say(&peer(0, 0)), []);
        assert_eq!(talk.endpoint.state, State::Established);
        // Now a window is announced that the SYN-ACK had no bits for.
        assert!(talk.wait(1_000).iter().all(|said| said.acked() == 0 && said.payload.is_empty()));
        talk
    }

    /// Hands the endpoint a packet, and returns what it answers at once.
    pub fn say(&mut self, packet: &Packet) -> Vec<Packet> {
        let bytes = packet.bytes();
        let (from, segment) = Segment::parse(&bytes, HERE).expect("a sound packet");
        assert_eq!(from, THERE);
        let said = self.endpoint.take(from, &segment, self.now);
        said.iter().map(|bytes| Packet::read(bytes)).collect()
    }

    /// Lets some microseconds pass, and returns what the endpoint sends then.
    pub fn wait(&mut self, micros: u64) -> Vec<Packet> {
        self.now += Duration::from_micros(micros);
        let mut said = vec![];
        while let Some(bytes) = self.endpoint.next_packet(self.now) {
            assert!(said.len() < 10_000, "it never stops");
            said.push(Packet::read(&bytes));
        }
        said
    }

    /// Waits for the timer, and returns after how many microseconds it ended, and what is sent.
    pub fn expire(&mut self) -> (u64, Vec<Packet>) {
        let micros =
            (self.endpoint.sending.expires_at().expect("a timer") - self.now).total_micros();
        (micros, self.wait(micros))
    }

    /// Waits for probes, and then for the timeout: how long all that takes, and what is sent then.
    pub fn time_out(&mut self) -> (u64, Vec<Packet>) {
        let mut micros = 0;
        loop {
            let before = self.endpoint.counts.timeouts;
            let (more, said) = self.expire();
            micros += more;
            if self.endpoint.counts.timeouts > before || self.endpoint.state != State::Established {
                return (micros, said);
            }
        }
    }

    pub fn read(&mut self, most: usize) -> Vec<u8> {
        let mut into = vec![0; most];
        let count = self.endpoint.receiving.read(&mut into);
        into.truncate(count);
        into
    }
}
