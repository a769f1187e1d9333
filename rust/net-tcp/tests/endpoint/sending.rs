//! What goes: the peer's MSS, the congestion window, and a peer that is silent.
use net_base::time::Duration;

use crate::peer::*;
use crate::tcp::{Options, State};

/// Where packets begin, and how many bytes they have.
fn places(said: &[Packet]) -> Vec<(u32, usize)> {
    said.iter().map(|packet| (packet.at(), packet.payload.len())).collect()
}

/// The bytes of the endpoint's stream.
fn text(from: usize, to: usize) -> Vec<u8> {
    (from..to).map(|at| (at % 251) as u8).collect()
}

/// An open connection with an MSS of 1000 and a round trip of 100 ms, in which the endpoint has
/// `count` bytes to send. A byte was sent before, and acknowledged, so that the congestion window is
/// 10,001 bytes and the timeout 300 ms.
fn talk(count: usize) -> Talk<4> {
    let mut talk = Talk::open(0x4_0000, OPTIONS);
    write(&mut talk, 0, 1);
    assert_eq!(places(&talk.wait(0)), [(0, 1)]);
    assert_eq!(talk.wait(100_000), []);
    assert_eq!(talk.say(&peer(0, 1)), []);
    write(&mut talk, 1, 1 + count);
    talk
}

fn write(talk: &mut Talk<4>, from: usize, to: usize) {
    assert_eq!(talk.endpoint.sending.write(&text(from, to)), to - from);
}

#[test]
fn the_peer_s_mss() {
    for (options, mss) in [
        (&[2, 4, 0, 100][..], 100),
        (&[], 536),
        (&[2, 4, 0, 0], 1),
        (&[2, 4, 0x23, 0x28], 1_460),
        (&[1, 1, 1, 1, 2, 4, 3, 232], 1_000),
    ] {
        let mut talk = Talk::open(1 << 16, options);
        write(&mut talk, 0, 9_000);
        let said = talk.wait(0);
        let count = (9_000 / mss).min(10);
        assert_eq!(said.iter().filter(|said| said.payload.len() == mss).count(), count, "{mss}");
        assert!(said.iter().all(|said| said.payload.len() <= mss));
        let all = said.iter().flat_map(|said| said.payload.clone()).collect::<Vec<_>>();
        assert_eq!(all, text(0, all.len()));
    }
}

/// A peer without blocks says by each third empty segment that one is lost, but not by one with its end.
#[test]
fn an_end_is_no_duplicate() {
    for (flags, again) in [(0, vec![(0, 536)]), (FIN, vec![])] {
        let mut talk = Talk::<4>::open(0x4_0000, &[]);
        write(&mut talk, 0, 5 * 536);
        assert_eq!(talk.wait(0).len(), 5);
        for _time in 0..3 {
            talk.say(&peer(if flags == FIN { 9 } else { 0 }, 0).with(flags));
        }
        assert_eq!(places(&talk.wait(0)), again);
    }
}

#[test]
fn congestion() {
    // Ten segments at first; one more for each that is acknowledged, two for two.
    let mut talk = talk(60_000);
    assert_eq!(places(&talk.wait(0)).len(), 10);
    talk.say(&peer(0, 1001));
    assert_eq!(talk.wait(0).len(), 2);
    talk.say(&peer(0, 3001));
    assert_eq!(talk.wait(0).len(), 4);
    // Five for five, and eight for more (RFC 9406, 4.3).
    talk.say(&peer(0, 8001));
    assert_eq!(talk.wait(0).len(), 10);
    talk.say(&peer(0, 20_001));
    assert_eq!(talk.wait(0).len(), 20);
    let mut talk = self::talk(60_000);
    assert_eq!(talk.wait(0).len(), 10);
    // After a timeout one segment, and slow start.
    assert_eq!(places(&talk.time_out().1), [(1, 1000)]);
    for acked in [1001, 2001, 3001, 4001, 5001] {
        talk.say(&peer(0, acked));
        assert_eq!(talk.wait(0).len(), 2);
    }
    // That ends above half of what was on the way: ten segments, and the probe.
    talk.say(&peer(0, 6001));
    assert_eq!(talk.wait(0).len(), 1);
    // There an acknowledgement of many counts as one of two.
    let mut talk = self::talk(60_000);
    assert_eq!(talk.wait(0).len(), 10);
    talk.say(&peer(0, 1).report(&[(1001, 6001)]));
    assert_eq!(places(&talk.time_out().1), [(1, 1000)]);
    talk.say(&peer(0, 6001));
    assert_eq!(talk.wait(0).len(), 3);
    // It is two segments at least, where less was on the way: three runs show that a byte is lost.
    let mut talk = self::talk(0);
    for at in 1..7 {
        write(&mut talk, at, at + 1);
        assert_eq!(talk.wait(0).len(), 1);
    }
    talk.say(&peer(0, 1).report(&[(6, 7), (4, 5), (2, 3)]));
    assert!(places(&talk.wait(0)).contains(&(1, 1)));
    talk.say(&peer(0, 7));
    write(&mut talk, 7, 7_007);
    assert_eq!(talk.wait(0).len(), 2);
    // It is half of what was on the way before acknowledgements that come together: of ten segments, not of six.
    let mut talk = self::talk(60_000);
    assert_eq!(talk.wait(0).len(), 10);
    talk.say(&peer(0, 4_001));
    talk.say(&peer(0, 4_001).report(&[(5_001, 10_001)]));
    assert_eq!(talk.wait(0).len(), 5);
    // A buffer of less than a segment doesn't limit it.
    let mut talk = Talk::<4>::open(100, OPTIONS);
    for (from, to, acked) in [(0, 1, 1), (1, 2, 1), (2, 60, 1)] {
        write(&mut talk, from, to);
        assert_eq!(places(&talk.wait(0)), [(from as u32, to - from)]);
        talk.say(&peer(0, acked));
    }
    // A loss halves the window, once for all that is on the way; then it grows by a segment for each
    // window that is acknowledged, and the next loss halves it again.
    let mut talk = self::talk(60_000);
    talk.wait(0);
    talk.say(&peer(0, 1).report(&[(1001, 6001)]));
    assert_eq!(places(&talk.wait(0)), [(1, 1000)]);
    talk.say(&peer(0, 10_001));
    assert_eq!(talk.wait(0).len(), 6);
    talk.say(&peer(0, 16_001));
    assert_eq!(talk.wait(0).len(), 7);
    talk.say(&peer(0, 16_001).report(&[(17_001, 20_001)]));
    assert_eq!(places(&talk.wait(0)), [(16_001, 1000)]);
    talk.say(&peer(0, 20_001));
    assert_eq!(talk.wait(0), []);
    talk.say(&peer(0, 23_001));
    assert_eq!(talk.wait(0).len(), 4);
}

/// How long it goes on without an answer.
fn silence(talk: &mut Talk<4>) -> u64 {
    let begun = talk.now;
    talk.endpoint.options.gives_up = Options::default().gives_up;
    while talk.endpoint.state != State::Silent {
        let at = talk.endpoint.expires_at().expect("a timer");
        talk.wait((at - talk.now).total_micros());
    }
    let lasted = (talk.now - begun).secs();
    assert_eq!((talk.endpoint.expires_at(), talk.wait(1_000_000)), (None, vec![]));
    lasted
}

#[test]
fn a_peer_that_is_silent() {
    // RFC 9293, 3.8.3: at least 100 s, and 3 minutes for a SYN.
    let mut talk = Talk::<4>::new(false, 100);
    talk.wait(0);
    assert_eq!(silence(&mut talk), 180);
    let mut talk = self::talk(5_000);
    assert_eq!(talk.wait(0).len(), 5);
    assert_eq!(silence(&mut talk), 100);
    // Any answer counts, and that to a probe of a window that is shut.
    let mut talk = self::talk(5_000);
    talk.endpoint.options.gives_up = Options::default().gives_up;
    talk.say(&peer(0, 1).window(0));
    assert_eq!(talk.wait(0), []);
    for _probe in 0..20 {
        assert_eq!(places(&talk.time_out().1), [(1, 1)]);
        assert_eq!(talk.say(&peer(0, 1).window(0)), []);
    }
    // What acknowledges something that was never sent doesn't.
    let mut unsent = self::talk(5_000);
    unsent.endpoint.options.gives_up = Options::default().gives_up;
    assert_eq!(unsent.wait(0).len(), 5);
    for _time in 0..9 {
        unsent.wait(10_000_000);
        assert_eq!(unsent.say(&peer(0, 5_002)).len(), 1);
    }
    assert_eq!(silence(&mut unsent), 10);
    // It is 60 s to the next probe, which is the first that isn't answered.
    assert_eq!(silence(&mut talk), 160);
    // Who listened does so again.
    let mut talk = Talk::<4>::new(true, 100);
    talk.say(&syn(OPTIONS));
    talk.wait(0);
    talk.wait(180_000_000);
    assert_eq!(talk.endpoint.state, State::Listen);
    // One that has reset the connection isn't silent.
    let mut talk = self::talk(5_000);
    talk.endpoint.options.gives_up = Options::default().gives_up;
    assert_eq!(talk.wait(0).len(), 5);
    talk.say(&peer(0, 1).with(RST));
    assert_eq!((talk.wait(0), talk.wait(100_000_000)), (vec![], vec![]));
    assert_eq!(talk.endpoint.state, State::Reset);
    // All that was sent is answered: it waits for the peer for good, whichever end opened.
    let mut listener = Talk::<4>::open(100, OPTIONS);
    let mut opener = Talk::<4>::new(false, 100);
    opener.wait(0);
    opener.say(&peer(u32::MAX, 0).with(SYN));
    for talk in [&mut listener, &mut opener] {
        talk.endpoint.options.gives_up = Options::default().gives_up;
        assert_eq!((talk.wait(999_000_000), talk.endpoint.state), (vec![], State::Established));
    }
}

#[test]
fn a_peer_that_is_asked() {
    let mut talk = talk(0);
    talk.endpoint.options.keep_alive = Some(Duration::from_secs(10));
    // The number before the first that isn't acknowledged, and no byte (RFC 9293, 3.8.4).
    for _time in 0..3 {
        let at = talk.endpoint.expires_at().expect("a timer");
        assert_eq!((at - talk.now).secs(), 10);
        let said = talk.wait((at - talk.now).total_micros());
        assert_eq!((places(&said), said[0].flags), (vec![(0, 0)], ACK));
        assert_eq!(talk.say(&peer(0, 1)), []);
    }
    // No answer: it asks again, and then gives up.
    assert_eq!(silence(&mut talk), 10 + 100);
    // It isn't asked while an answer is due anyway, nor once both ends have closed.
    let mut talk = self::talk(1);
    talk.endpoint.options.keep_alive = Some(Duration::from_secs(10));
    talk.endpoint.sending.close();
    let mut said = talk.wait(0);
    for _time in 0..8 {
        said.extend(talk.time_out().1);
    }
    assert!(places(&said).iter().all(|it| *it == (1, 1)));
    talk.say(&peer(0, 3).with(FIN));
    assert!(talk.endpoint.is_closed() && talk.endpoint.expires_at().is_none());
    // The peer's are answered.
    let mut talk = self::talk(0);
    assert_eq!(talk.say(&peer(u32::MAX, 1)).len(), 1);
}
