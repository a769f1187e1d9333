//! A sending end: whatever arrives, forged acknowledgements too, what is sent is what was written, nothing is sent
//! beyond the peer's edge but a probe, and a timer runs while anything waits. In `endpoint` two ends talk over a path.
#![cfg(feature = "alloc")]
use net_base::rand::Rand;
use net_base::time::{Duration, Instant};
use net_tcp::{AckSegment, Acknowledged, Expired, SegmentBytes, SendingEnd};
use net_tcp::{Announcement, Sack, TimeoutBounds};

const RUNS: u32 = if cfg!(target_pointer_width = "64") { 20_000 } else { 200 };

fn byte(at: u64) -> u8 {
    (at ^ (at / 251)) as u8
}

const SECOND: Duration = Duration::from_secs(1);

/// Whether a peer reports blocks.
fn sack(reports: bool) -> Sack {
    if reports {
        Sack::Permitted
    } else {
        Sack::Absent
    }
}

/// Whether a segment has anything beside its acknowledgement.
fn segment(is_empty: bool) -> AckSegment {
    if is_empty {
        AckSegment::Pure
    } else {
        AckSegment::WithData
    }
}

/// One of these, by chance.
fn any<const K: usize>(rand: &mut Rand, of: [u64; K]) -> u64 {
    of[rand.below(K as u32) as usize]
}

#[test]
fn whatever_arrives() {
    for seed in 0..RUNS {
        let rand = &mut Rand::new(seed.into());
        let first = any(rand, [0, 1, 1 << 32, u64::MAX - 40]);
        let capacity = any(rand, [0, 1, 7, 100]) as usize;
        let mut end =
            SendingEnd::<4>::new_at(vec![0; capacity], first, SECOND, TimeoutBounds::default());
        let window = any(rand, [0, 1, 50, u64::MAX]);
        end.open(
            Announcement { seq: 0, ack: first, window },
            any(rand, [0, 1, 5, 1_000]) as usize,
            sack(any(rand, [0, 1]) == 1),
            Instant::ZERO,
        );
        end.set_nagle_enabled(seed % 2 == 0);
        let mut edge = first.saturating_add(window);
        let (mut written, mut closed, mut now) = (first, false, Instant::ZERO);
        for _step in 0..60 {
            let numbers = end.numbers();
            assert!(numbers.first_unacknowledged <= numbers.sent);
            let wild = rand.rand_u32();
            match rand.below(5) {
                0 => {
                    let bytes =
                        (0..20).map(|at| byte(written.wrapping_add(at))).collect::<Vec<_>>();
                    let room = end.window();
                    let count = end.write(&bytes);
                    assert_eq!(count, room.min(bytes.len()));
                    written += count as u64;
                    if wild % 20 == 0 {
                        end.close();
                        closed = true;
                    }
                }
                1 | 2 => {
                    let (una, sent) = (numbers.first_unacknowledged, numbers.sent);
                    let mid = una + u64::from(wild) % (sent - una + 1);
                    let far = sent.saturating_add(1);
                    let ack = any(rand, [una, sent, mid, mid, far, u64::MAX, 0, una / 2]);
                    let seq = any(rand, [0, 1, u64::MAX, 5]);
                    let window = any(rand, [0, 1, 10, 60, u64::MAX]);
                    let blocks = [
                        any(rand, [0, una, mid, sent])..any(rand, [una, mid, sent, far]),
                        any(rand, [mid, una.saturating_add(1)])..any(rand, [sent, far, mid]),
                    ];
                    let runs = end.expires_at().is_some();
                    let it = Announcement { seq, ack, window };
                    match end.acknowledged(it, &blocks, segment(any(rand, [0, 1]) == 0), now) {
                        Acknowledged::Taken { new, .. } => {
                            assert!(una <= ack && ack <= sent && new == ack - una);
                            edge = edge.max(ack.saturating_add(window));
                            assert!(ack == sent || end.expires_at().is_some());
                        }
                        other => {
                            assert!(ack < una || other == Acknowledged::Refused && ack > sent);
                            assert_eq!(
                                (end.numbers(), end.expires_at().is_some()),
                                (numbers, runs)
                            );
                        }
                    }
                }
                3 => {
                    now += Duration::from_millis(u64::from(wild % 3_000));
                    let waits = numbers.first_unacknowledged < written + u64::from(closed);
                    match end.expired(now) {
                        Expired::Probe | Expired::Lost if waits => {
                            // The first number that isn't acknowledged goes out, however small the window is.
                            let it = end.next_segment(0, now).expect("a segment");
                            assert_eq!(it.pos, numbers.first_unacknowledged);
                        }
                        _ => {}
                    }
                }
                _ => {
                    let window = any(rand, [0, 1, 30, u64::MAX]);
                    let una = end.numbers().first_unacknowledged;
                    while let Some(it) = end.next_segment(window, now) {
                        let SegmentBytes { front, back, fin } = end.bytes(it.range());
                        let bytes = [front, back].concat();
                        let after = it.pos + bytes.len() as u64 + u64::from(fin);
                        assert_eq!(after, it.end);
                        assert!(it.pos < after && after <= written + u64::from(closed));
                        assert!(bytes
                            .iter()
                            .zip(0..)
                            .all(|(found, at)| *found == byte(it.pos + at)));
                        assert_eq!(fin, closed && after == written + 1);
                        assert!(
                            after <= edge || (it.pos, after) == (una, una + 1),
                            "beyond the edge"
                        );
                    }
                    let waits = una < written + u64::from(closed);
                    assert!(end.expires_at().is_some() || !waits, "nothing wakes it");
                }
            }
        }
    }
}

/// What an end that begins again knows of the stream before: nothing but whether Nagle's rule is enabled.
#[test]
fn an_end_begins_again() {
    let mut end = SendingEnd::<4>::new_at(vec![0; 60], 10, SECOND, TimeoutBounds::default());
    let it = Announcement { seq: 0, ack: 10, window: 100 };
    end.open(it, 10, Sack::Permitted, Instant::ZERO);
    assert_eq!(end.write(&[7; 60]), 60);
    end.set_nagle_enabled(false);
    assert!(end.next_segment(100, Instant::ZERO).is_some() && end.expires_at().is_some());
    end.reset_at(1_000);
    assert_eq!((end.numbers().first_unacknowledged, end.numbers().sent), (1_000, 1_000));
    assert_eq!((end.flight_size(), end.expires_at(), end.segment_size()), (0, None, 1));
    assert!(!end.nagle_enabled() && end.write(b"abc") == 3);
    let it = Announcement { seq: 0, ack: 1_000, window: 50 };
    end.open(it, 10, Sack::Permitted, Instant::ZERO);
    assert_eq!(end.next_segment(100, Instant::ZERO).map(|it| it.range()), Some(1_000..1_003));
    assert_eq!(
        format!("{end:?}"),
        "SendingEnd { numbers: SentNumbers { first_unacknowledged: 1000, sent: 1003 }, window: 57, \
         expires_at: Some(Instant { micros: 1000000 }), .. }"
    );
}
