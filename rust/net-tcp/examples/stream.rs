//! A stream that ends, over a link that swaps neighbouring segments: sequence numbers that wrap, the window that is
//! announced, and the end, which has a number as a byte has.
use net_base::finite::{FiniteReceiver, FiniteSender, LentBytes};
use net_base::sequence_number::SequenceNumber;
use net_tcp::{is_acceptable, scaled, AdvertisedWindow, PeerWindow};

/// The most bytes of a segment.
const MSS: u16 = 5;
/// The number of position 0.
const FIRST: SequenceNumber = SequenceNumber::new(u32::MAX - 20);

struct Segment {
    number: SequenceNumber,
    payload: Vec<u8>,
    /// Whether the stream ends after the payload.
    fin: bool,
}

impl Segment {
    /// How many numbers it has: the end's is one.
    fn len(&self) -> u64 {
        self.payload.len() as u64 + u64::from(self.fin)
    }
}

/// Cuts what the window allows into segments.
fn segments(sender: &mut FiniteSender, window: &PeerWindow) -> Vec<Segment> {
    let (mut segments, mut pos) = (vec![], sender.first_number());
    let limit = window.send_limit(sender.numbers_end());
    while pos < limit {
        let LentBytes { bytes, fin } = sender.send_at(pos, limit.min(pos + u64::from(MSS)));
        let segment =
            Segment { number: SequenceNumber::at(FIRST, pos), payload: bytes.to_vec(), fin };
        pos += segment.len();
        segments.push(segment);
    }
    segments
}

fn main() {
    let text = b"Bytes are read in order and without holes, whatever the order of the segments.";
    let (mut to_send, mut to_receive) = ([0u8; 32], [0u8; 32]);
    let mut sender = FiniteSender::new_at(&mut to_send[..], 0);
    let mut receiver = FiniteReceiver::<4>::new_at(&mut to_receive[..], 0);
    let mut advertised = AdvertisedWindow::new(0);
    let mut peer_window = PeerWindow::new();
    peer_window.open_to(scaled(advertised.announce(0, 0, 32), 0));
    let (mut rest, mut read) = (&text[..], Vec::new());
    while !sender.is_closed_and_acknowledged() {
        rest = &rest[sender.write(rest)..];
        if rest.is_empty() {
            sender.close();
        }
        let mut segments = segments(&mut sender, &peer_window);
        segments.chunks_exact_mut(2).for_each(|pair| pair.swap(0, 1));
        for segment in segments {
            let next = receiver.acknowledged();
            let Some(pos) = segment.number.position(FIRST, next) else { continue };
            if is_acceptable(next, advertised.edge() - next, pos, segment.len()) {
                let kept = receiver.keep(pos, &segment.payload, segment.fin);
                let held = receiver.receiver().held().collect::<Vec<_>>();
                println!("{} at {pos}: {kept:?}, held {held:?}", segment.number.get());
            }
        }
        let mut into = [0; 7];
        while let count @ 1.. = receiver.read(&mut into) {
            read.extend(&into[..count]);
        }
        // What an acknowledgement has: a number, and a window.
        let next = receiver.acknowledged();
        let window_end = receiver.window_end().unwrap_or(next);
        let window = advertised.announce_in_steps(0, next, window_end, 32, MSS);
        let acknowledged = SequenceNumber::at(FIRST, next);

        if let Some(next) = acknowledged.position(FIRST, sender.first_number()) {
            peer_window.open_to(next + scaled(window, 0));
            assert!(sender.acknowledge(next));
        }
    }
    assert!(receiver.has_read_all() && read == text);
    println!("{}", String::from_utf8_lossy(&read));
}
