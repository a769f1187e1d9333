//! Acknowledgements, blocks and windows of any numbers to a sending end, and moments out of order. What it gives was
//! written and isn't acknowledged; and once the peer is honest, all of it is acknowledged.
#![no_main]
use net_base::time::{Duration, Instant};
use net_base_fuzz::{byte_at, fuzz, Draw};
use net_tcp::{AckSegment, SendingEnd};
use net_tcp::{Announcement, Sack, TimeoutBounds};

/// Takes a segment, if there is one to send, whose bytes are those of its positions.
fn send(end: &mut SendingEnd<3>, written: u64, window: u64, now: Instant) -> bool {
    let first = end.numbers().first_unacknowledged;
    let Some(it) = end.next_segment(window, now) else { return false };
    assert!(first <= it.pos && it.pos < it.end && it.end <= written + 1);
    let bytes = end.bytes(it.range());
    let all = bytes.front.iter().chain(bytes.back).copied();
    assert!(all.eq((it.pos..it.end.min(written)).map(byte_at)));
    true
}

fn play(mut draw: Draw) {
    let (first, second) = (draw.near(0).min(u64::MAX - 4096), Duration::from_secs(1));
    let mut end = SendingEnd::<3>::new_at(vec![0; 64], first, second, TimeoutBounds::new());
    let (mut written, mut now) = (first, Instant::ZERO);
    let sack = [Sack::Absent, Sack::Permitted][draw.below(2)];
    let opening = Announcement { seq: draw.near(0), ack: first, window: draw.near(99) };
    end.open(opening, draw.byte().into(), sack, now);
    while !draw.is_empty() {
        match draw.below(6) {
            0 if written - first < 2048 => {
                let bytes: Vec<u8> = (written..written + 50).map(byte_at).collect();
                written += end.write(&bytes[..draw.below(50)]) as u64;
            }
            1 => drop(end.expired(now)),
            2 => now = Instant::from_micros(draw.near(now.total_micros() as u64) as i64),
            3 | 4 => {
                let [seq, ack, window] = [0, written, 0].map(|it| draw.near(it));
                let blocks = [(); 3].map(|()| draw.near(written)..draw.near(written));
                let segment = [AckSegment::Pure, AckSegment::WithData][draw.below(2)];
                let it = Announcement { seq, ack, window };
                let _taken = end.acknowledged(it, &blocks[..draw.below(4)], segment, now);
            }
            _ => drop(send(&mut end, written, draw.near(0), now)),
        }
    }
    // An honest peer has an open window, and acknowledges all that it is sent.
    end.close();
    now = Instant::from_secs(1 << 20);
    let is_done = (0..9_999).any(|_| {
        let _expired = end.expired(now);
        let it = Announcement { seq: u64::MAX / 4, ack: end.numbers().sent, window: 9_999 };
        let _taken = end.acknowledged(it, &[], AckSegment::Pure, now);
        while send(&mut end, written, 9_999, now) {}
        now = end.expires_at().unwrap_or(now).max(now);
        end.is_done()
    });
    assert!(is_done, "not all is acknowledged");
}

fuzz!(play);
