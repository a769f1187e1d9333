//! Timestamps (RFC 7323), and what they tell of copies (RFC 3522).
use crate::peer::*;
use crate::tcp::State;
use crate::timestamps::Timestamps;
use crate::wire::Segment;

/// The peer's clock at its SYN: it wraps soon.
const CLOCK: u32 = 0xffff_fffe;

fn clock(millis: u32) -> u32 {
    CLOCK.wrapping_add(millis)
}

/// What a packet says of the clocks: the endpoint's, and what it echoes of the peer's, from the peer's SYN on.
fn times(packet: &Packet) -> Option<(u32, u32)> {
    let at = |from: &[u8]| u32::from_be_bytes(from.try_into().unwrap());
    packet.option(8).map(|it| (at(&it[..4]), at(&it[4..]).wrapping_sub(CLOCK)))
}

/// An open connection with timestamps, at the endpoint's clock, which is returned.
fn open(bytes: usize) -> (Talk<8>, u32) {
    let mut talk = Talk::<8>::new(true, 1 << 16);
    talk.say(&syn(OPTIONS).times(CLOCK, 0));
    let answer = talk.wait(0).remove(0);
    let (own, echoed) = times(&answer).expect("both have them");
    assert_eq!((answer.option(2), echoed), (Some(&[5, 180][..]), 0));
    assert_eq!(talk.say(&peer(0, 0).times(clock(1), own)), []);
    assert_eq!(talk.endpoint.sending.write(&vec![7; bytes]), bytes);
    (talk, own)
}

#[test]
fn both_syns_have_them() {
    // The text is shorter by as much, and has them; three blocks have room.
    let (mut talk, own) = open(2_000);
    let said = talk.wait(3);
    assert_eq!(said.iter().map(|it| it.payload.len()).collect::<Vec<_>>(), [988, 988, 24]);
    assert!(said.iter().all(|it| times(it) == Some((own, 1))));
    for (at, count) in [(20, 1), (40, 2), (60, 3), (80, 3)] {
        let said = talk.say(&peer(at, 0).text(b"x").times(clock(2), own));
        assert_eq!((said[0].blocks().len(), times(&said[0])), (count, Some((own, 1))));
    }
    // Their clock is in milliseconds.
    talk.say(&peer(0, 2_000).text(b"x").times(clock(3), own));
    talk.endpoint.sending.close();
    assert_eq!(times(&talk.wait(7_000)[0]), Some((own.wrapping_add(7), 3)));

    // The SYN has none, and so no packet has; nor if the answer to the own SYN has none.
    let mut talk = Talk::<8>::open(1 << 16, OPTIONS);
    assert_eq!(talk.endpoint.sending.write(&[7; 2_000]), 2_000);
    assert!(talk.wait(0).iter().all(|it| it.options.is_empty() && it.payload.len() == 1000));
    // One that has is taken, and isn't echoed.
    assert_eq!(times(&talk.say(&peer(9, 0).text(b"x").times(7, 7))[0]), None);
    for answers in [false, true] {
        let mut talk = Talk::<8>::new(false, 1 << 16);
        let first = talk.wait(0).remove(0);
        let (own, _) = times(&first).expect("the SYN offers them");
        assert_eq!(first.option(8).map(|it| &it[4..]), Some(&[0; 4][..]));
        let answer = Packet { acknowledged: INITIAL.wrapping_add(1), ..syn(OPTIONS).with(ACK) };
        let answer = if answers { answer.times(CLOCK, own) } else { answer };
        let said = talk.say(&answer).remove(0);
        assert_eq!(
            (talk.endpoint.state, times(&said)),
            (State::Established, answers.then_some((own, 0)))
        );
    }
    // Both open: the SYN comes again, with the clock as it is then.
    let mut talk = Talk::<8>::new(false, 1 << 16);
    let (own, _) = times(&talk.wait(0)[0]).unwrap();
    talk.say(&syn(OPTIONS).times(CLOCK, 0));
    assert_eq!(times(&talk.wait(2_000)[0]), Some((own.wrapping_add(2), 0)));
    talk.wait(3_000);
    assert_eq!(times(&talk.say(&syn(OPTIONS).times(CLOCK, 0))[0]), Some((own.wrapping_add(5), 0)));
}

/// A segment without them is dropped, but for a reset.
#[test]
fn none_are_missing() {
    let (mut talk, _own) = open(0);
    for packet in [peer(0, 0).text(b"x"), peer(9, 0).text(b"x"), peer(0, 1), peer(0, 0).with(SYN)] {
        assert_eq!((talk.say(&packet), talk.wait(0)), (vec![], vec![]));
    }
    assert_eq!(talk.read(9), b"");
    talk.say(&Packet { flags: RST, ..peer(0, 0) });
    assert_eq!(talk.endpoint.state, State::Reset);
}

/// What is echoed is the clock of the segment at or before what was acknowledged last (RFC 7323, 4.3).
#[test]
fn what_is_echoed() {
    let (mut talk, own) = open(0);
    // The first of two that one acknowledgement answers; not what comes out of order, nor what fills the hole later.
    assert_eq!(talk.say(&peer(0, 0).text(b"a").times(clock(5), own)), []);
    let said = talk.say(&peer(1, 0).text(b"b").times(clock(6), own));
    assert_eq!(times(&said[0]).unwrap().1, 5);
    let said = talk.say(&peer(3, 0).text(b"d").times(clock(8), own));
    assert_eq!((said[0].acked(), times(&said[0]).unwrap().1), (2, 5));
    let said = talk.say(&peer(2, 0).text(b"c").times(clock(7), own));
    assert_eq!((said[0].acked(), times(&said[0]).unwrap().1), (4, 7));
    // Not an older clock.
    assert_eq!(talk.say(&peer(4, 0).times(clock(6), own)), []);
    // Not one that isn't taken: it is old, it is beyond the window, or acknowledges what was never sent.
    for packet in [peer(0, 0).text(b"abcd"), peer(70_000, 0).text(b"x"), peer(4, 9).text(b"x")] {
        let said = talk.say(&packet.times(clock(1 << 30), own));
        assert_eq!((said[0].acked(), times(&said[0]).unwrap().1), (4, 7));
    }
    assert_eq!(talk.say(&peer(4, 0).text(b"e").times(clock(8), own)), []);
    assert_eq!(talk.read(9), b"abcde");
}

/// Text from more than a GiB before is answered, and isn't kept (PAWS, RFC 7323, 5.3); text that is late is kept.
#[test]
fn what_is_too_old() {
    let (mut talk, own) = open(1_000);
    talk.wait(0);
    // Four GiB, of ten ticks each: the first two ends are at 9 and 19.
    let segment = |value| Segment { timestamps: Some((value, 0)), ..Segment::default() };
    let first = talk.endpoint.receiving.receiver().acknowledged() >> 30;
    for tick in 0..39 {
        let times = &mut talk.endpoint.timestamps;
        times.tell((first + u64::from(tick) / 10) << 30);
        times.take(&segment(clock(tick)), (first + u64::from(tick) / 10) << 30);
        let is_old = [0, 8, 9, 18, 19, 28].map(|old| times.is_old(&segment(clock(old))));
        let ends = [tick >= 20, tick >= 20, tick >= 30, tick >= 30, false, false];
        assert_eq!(is_old, ends, "{tick}");
    }
    for old in [clock(18), clock(38u32.wrapping_sub(i32::MAX as u32))] {
        let said = talk.say(&peer(0, 0).text(b"X").times(old, own));
        assert_eq!((said[0].acked(), times(&said[0]).unwrap().1), (0, 38));
    }
    assert_eq!(talk.say(&peer(0, 0).text(b"a").times(clock(19), own)), []);
    assert_eq!(talk.read(9), b"a");
    // An acknowledgement that was overtaken isn't too old; nor is anything after 24 days.
    assert_eq!(talk.say(&peer(1, 988).times(clock(1), own)), []);
    assert_eq!(talk.endpoint.sending.flight_size(), 12);
    talk.say(&peer(1, 1_000).times(clock(38), own));
    talk.wait(24 * 86_400_000_000 + 1_000);
    for (at, text, tick) in [(1, b"b", 1), (2, b"c", 2)] {
        talk.say(&peer(at, 1_000).text(text).times(clock(tick), own));
        assert_eq!((talk.read(9), times(&talk.wait(0)[0]).unwrap().1), (text.to_vec(), tick));
    }
    // Nothing stays of it for the next peer.
    let mut times = Timestamps::new(0);
    times.open(&segment(CLOCK), 0);
    for part in 1..4 {
        times.tell(part << 30);
        times.take(&segment(clock(part as u32)), part << 30);
    }
    assert!(times.is_old(&segment(CLOCK)));
    times.open(&segment(clock(3)), 0);
    assert!(!times.is_old(&segment(CLOCK)));
}

/// The first acknowledgement of more, after a copy, echoes what was sent before it: then nothing was lost.
#[test]
fn copies_for_nothing() {
    for (echoed, more, then) in [(0, 6, 2), (1, 6, 2), (2, 2, 1)] {
        let (mut talk, own) = open(40_000);
        assert_eq!(talk.wait(1_000).len(), 10);
        let blocks = peer(0, 0).report(&[(988, 9_880)]);
        talk.say(&blocks.times(clock(2), own.wrapping_add(1)));
        // The copy, and what half of the window has room for.
        let said = talk.wait(1_000);
        assert_eq!((said[0].at(), said.len()), (0, 5));
        // All ten are acknowledged. Four are on the way, of ten again or of six.
        talk.say(&peer(0, 9_880).times(clock(3), own.wrapping_add(echoed)));
        assert_eq!(talk.wait(0).len(), more);
        // It is the first acknowledgement of more alone that tells so.
        talk.say(&peer(0, 10_868).times(clock(3), own));
        assert_eq!(talk.wait(0).len(), then);
    }
    // Nor is it one that tells of the loss, or of nothing more.
    let (mut talk, own) = open(40_000);
    assert_eq!(talk.wait(1_000).len(), 10);
    talk.say(&peer(0, 988).report(&[(1_976, 9_880)]).times(clock(2), own));
    assert_eq!(talk.wait(1_000).len(), 5);
    talk.say(&peer(0, 988).report(&[(1_976, 9_880)]).times(clock(3), own));
    assert_eq!(talk.wait(0).len(), 0);
    // Nor do they without the SYN's.
    let mut talk = Talk::<8>::open(1 << 16, OPTIONS);
    assert_eq!(talk.endpoint.sending.write(&[7; 40_000]), 40_000);
    assert_eq!(talk.wait(1_000).len(), 10);
    talk.say(&peer(0, 0).report(&[(1_000, 10_000)]));
    assert_eq!(talk.wait(1_000).len(), 5);
    let echoed = INITIAL.wrapping_add(talk.now.total_millis() as u32 - 1);
    talk.say(&peer(0, 10_000).times(CLOCK, echoed));
    assert_eq!(talk.wait(0).len(), 2);
    // Nor after a timeout: all that was sent would be sent again at once.
    let (mut talk, own) = open(40_000);
    assert_eq!(talk.wait(1_000).len(), 10);
    assert_eq!(talk.time_out().1.len(), 1);
    talk.say(&peer(0, 988).times(clock(2), own.wrapping_add(1)));
    assert_eq!(talk.wait(0).len(), 2);
}
