//! What comes: packets, the handshake, numbers that aren't acceptable, text that comes twice, the end.
use crate::peer::*;
use crate::tcp::State;
use crate::wire::Segment;

/// The one answer that is an acknowledgement of `acked` and without payload.
fn challenge(said: &[Packet], acked: u32) -> &Packet {
    let [packet] = said else { panic!("not one answer: {said:?}") };
    assert_eq!((packet.flags, packet.acked(), packet.payload.len()), (ACK, acked, 0));
    packet
}

/// The one answer is a reset with this number.
fn is_reset(said: &[Packet], number: u32) {
    let [packet] = said else { panic!("not one answer: {said:?}") };
    assert_eq!((packet.flags, packet.number, packet.payload.len()), (RST, number, 0));
}

#[test]
fn packets_of_linux() {
    // A SYN, and three bytes that it sent after the SYN-ACK.
    let syn = [
        0x45, 0x00, 0x00, 0x3c, 0x3e, 0x84, 0x40, 0x00, 0x40, 0x06, 0xe7, 0x9b, 0x0a, 0x4d, 0x00,
        0x01, 0x0a, 0x4d, 0x00, 0x02, 0x9c, 0x40, 0x13, 0x89, 0xe4, 0xd0, 0x56, 0x8c, 0x00, 0x00,
        0x00, 0x00, 0xa0, 0x02, 0xfa, 0xf0, 0x21, 0x94, 0x00, 0x00, 0x02, 0x04, 0x05, 0xb4, 0x04,
        0x02, 0x08, 0x0a, 0x9c, 0x2c, 0x8f, 0x88, 0x00, 0x00, 0x00, 0x00, 0x01, 0x03, 0x03, 0x0a,
    ];
    let (from, segment) = Segment::parse(&syn, HERE).unwrap();
    assert_eq!(from, THERE);
    assert_eq!((segment.number, segment.flags, segment.window), (0xe4d0_568c, SYN, 64_240));
    assert_eq!((segment.mss, segment.scale, segment.selective), (Some(1460), Some(10), true));
    let text = [
        0x45, 0x00, 0x00, 0x2b, 0x3e, 0x86, 0x40, 0x00, 0x40, 0x06, 0xe7, 0xaa, 0x0a, 0x4d, 0x00,
        0x01, 0x0a, 0x4d, 0x00, 0x02, 0x9c, 0x40, 0x13, 0x89, 0xe4, 0xd0, 0x56, 0x8d, 0x00, 0x00,
        0x03, 0xe9, 0x50, 0x18, 0x00, 0x3f, 0xd8, 0x78, 0x00, 0x00, 0x6f, 0x64, 0x64,
    ];
    let (_from, segment) = Segment::parse(&text, HERE).unwrap();
    assert_eq!((segment.number, segment.acknowledged), (0xe4d0_568d, 1_001));
    assert_eq!((segment.window, segment.payload), (63, &b"odd"[..]));
    // A changed bit anywhere is found, and so is a packet that ends too early. Bytes after its
    // length are not the segment's.
    for at in 0..8 * text.len() {
        let mut text = text;
        text[at / 8] ^= 1 << (at % 8);
        assert!(Segment::parse(&text, HERE).is_none(), "bit {at}");
    }
    assert!((0..text.len()).all(|len| Segment::parse(&text[..len], HERE).is_none()));
    let padded = [&text[..], b"padding"].concat();
    assert_eq!(Segment::parse(&padded, HERE).unwrap().1.payload, b"odd");
}

#[test]
fn options() {
    let parsed = |options: &[u8]| {
        let bytes = syn(options).bytes();
        let segment = Segment::parse(&bytes, HERE).unwrap().1;
        (segment.mss, segment.scale, segment.selective)
    };
    assert_eq!(parsed(OPTIONS), (Some(1000), Some(2), true));
    // An unknown one is passed over, a scale above 14 is 14, and nothing is read after the end.
    assert_eq!(parsed(&[99, 3, 7, 3, 3, 77, 4, 2]), (None, Some(14), true));
    assert_eq!(parsed(&[1, 1, 1, 0, 2, 4, 1, 1]), (None, None, false));
    // One that has two bytes is none of three. Lengths of 0 and 1, and one beyond the header, end the list.
    assert_eq!(parsed(&[4, 3, 1, 1]), (None, None, false));
    for len in [0, 1, 6] {
        assert_eq!(parsed(&[4, 2, 9, len, 2, 4, 1, 1]), (None, None, true));
    }
    let words = (1..9u32).flat_map(u32::to_be_bytes);
    let bytes = syn(&[1, 1, 5, 34].into_iter().chain(words).collect::<Vec<_>>()).bytes();
    let blocks = Segment::parse(&bytes, HERE).unwrap().1.blocks;
    assert_eq!(blocks, [(1, 2), (3, 4), (5, 6), (7, 8)].map(Some));
}

#[test]
fn packets_that_are_not_the_connection_s() {
    let bytes = syn(&[1, 1, 1, 1]).bytes();
    let is_taken = |at: usize, byte: u8| {
        let mut bytes = bytes.clone();
        bytes[at] = byte;
        Segment::parse(&sealed(bytes), HERE).is_some()
    };
    // Don't fragment; but a fragment, the first or another one, is not taken.
    assert!(is_taken(6, 0x40) && is_taken(6, 0));
    assert!(!is_taken(6, 0x20) && !is_taken(6, 1) && !is_taken(7, 1));
    // Another version, a longer header, another protocol, an address and a port.
    assert!(!is_taken(0, 0x65) && !is_taken(0, 0x46) && !is_taken(9, 17));
    assert!(!is_taken(19, 3) && !is_taken(22, 0) && !is_taken(23, 0));
    // A length beyond the packet, and headers shorter than 20 bytes or longer than the segment.
    assert!([45, 19, 20, 39].iter().all(|len| !is_taken(3, *len)));
    assert!((0..16).all(|words| is_taken(32, words << 4) == (words == 5 || words == 6)));
}

#[test]
fn handshakes() {
    // What the SYN-ACK offers is what the SYN had.
    for (capacity, window, scale) in
        [(100, 100, 0), (0xffff, 0xffff, 0), (0x1_0000, 0xffff, 1), (0x10_0000, 0xffff, 5)]
    {
        let mut talk = Talk::<4>::new(true, capacity);
        assert_eq!(talk.say(&syn(OPTIONS)), []);
        let answer = &talk.wait(0)[0];
        assert_eq!((answer.flags, answer.number, answer.acked()), (SYN | ACK, INITIAL, 0));
        assert_eq!((answer.window, answer.option(2)), (window, Some(&[5, 180][..])));
        assert_eq!((answer.option(3), answer.option(4)), (Some(&[scale][..]), Some(&[][..])));
    }
    let mut talk = Talk::<4>::new(true, 0x10_0000);
    assert_eq!(talk.say(&syn(&[]).with(RST)), []);
    for unasked in [peer(0, 0), peer(0, 7).with(SYN)] {
        is_reset(&talk.say(&unasked), unasked.acknowledged);
        assert_eq!((talk.endpoint.state, talk.wait(0)), (State::Listen, vec![]));
    }
    talk.say(&syn(&[]));
    let answer = &talk.wait(0)[0];
    assert_eq!((answer.option(3), answer.option(4)), (None, None));
    // It is sent again after 1 s, 2 s, 4 s; numbers that it never had acknowledge nothing.
    assert_eq!(talk.expire(), (1_000_000, vec![answer.clone()]));
    for acked in [1, u32::MAX] {
        is_reset(&talk.say(&peer(0, acked)), peer(0, acked).acknowledged);
        assert_eq!(talk.endpoint.state, State::SynReceived);
    }
    assert_eq!(talk.expire(), (2_000_000, vec![answer.clone()]));
    let bytes = peer(0, 0).bytes();
    let (_from, segment) = Segment::parse(&bytes, HERE).unwrap();
    assert_eq!(talk.endpoint.take((THERE.0, 1), &segment, talk.now), None);
    assert_eq!(talk.endpoint.state, State::SynReceived);
    talk.say(&peer(0, 0));
    assert_eq!(talk.endpoint.state, State::Established);

    let mut talk = Talk::<4>::new(false, 0x10_0000);
    let first = &talk.wait(0)[0];
    assert_eq!((first.flags, first.number, first.acknowledged), (SYN, INITIAL, 0));
    assert_eq!((first.option(3), first.option(4)), (Some(&[5][..]), Some(&[][..])));
    // Neither a reset nor a SYN that acknowledges another number, nor one that acknowledges none. Of
    // them the SYN is answered by a reset.
    let answer = Packet { acknowledged: INITIAL.wrapping_add(1), ..syn(OPTIONS).with(ACK) };
    let answer = answer.window(100);
    let other = Packet { acknowledged: INITIAL, ..answer.clone() };
    is_reset(&talk.say(&other), INITIAL);
    is_reset(&talk.say(&Packet { flags: ACK, ..other.clone() }), INITIAL);
    for packet in [other.with(RST), Packet { flags: RST, ..answer.clone() }] {
        assert_eq!((talk.say(&packet), talk.endpoint.state), (vec![], State::SynSent));
    }
    assert_eq!(challenge(&talk.say(&answer), 0).at(), 0);
    assert_eq!(talk.endpoint.state, State::Established);
    // The window of a SYN has no scale.
    assert_eq!(talk.endpoint.sending.write(&[5; 1_000]), 1_000);
    assert_eq!(talk.wait(0)[0].payload, [5; 100]);
    let mut talk = Talk::<4>::new(false, 100);
    talk.say(&Packet { flags: RST | ACK, ..answer });
    assert_eq!(talk.endpoint.state, State::Reset);
}

#[test]
fn both_open_at_once() {
    let mut talk = Talk::<4>::new(false, 100);
    let first = talk.wait(0).remove(0);
    assert_eq!((first.flags, first.number), (SYN, INITIAL));
    // The peer's SYN crosses the own one: it is acknowledged, with the own SYN once more.
    assert_eq!(talk.say(&syn(OPTIONS)), []);
    assert_eq!(talk.endpoint.state, State::SynReceived);
    let answer = talk.wait(0).remove(0);
    assert_eq!((answer.flags, answer.number, answer.acked()), (SYN | ACK, INITIAL, 0));
    // The answer is lost: the SYN comes again, and so does the answer. It takes no other SYN for that.
    assert_eq!(talk.say(&syn(OPTIONS)), [answer]);
    let other = Packet { number: PEER.wrapping_add(5), ..syn(OPTIONS) };
    challenge(&talk.say(&other), 0);
    // So does the peer. Its SYN is a second one, and is answered, half a second later; its next segment opens.
    assert_eq!(talk.say(&other), []);
    talk.wait(500_000);
    challenge(&talk.say(&peer(u32::MAX, 0).with(SYN)), 0);
    assert_eq!(talk.say(&peer(0, 0).text(b"abc")), []);
    assert_eq!((talk.endpoint.state, talk.read(9)), (State::Established, b"abc".to_vec()));
    // A reset before that ends it: no one listened.
    let mut talk = Talk::<4>::new(false, 100);
    talk.wait(0);
    talk.say(&syn(OPTIONS));
    talk.say(&Packet { flags: RST, ..peer(0, 0) });
    assert_eq!(talk.endpoint.state, State::Reset);
}

#[test]
fn who_listens_goes_on() {
    let mut talk = Talk::<4>::new(true, 0x10_0000);
    for options in [&[][..], OPTIONS, &[]] {
        talk.say(&syn(options));
        let answer = talk.wait(0).remove(0);
        assert_eq!((answer.flags, answer.option(3).is_some()), (SYN | ACK, options == OPTIONS));
        assert_eq!(talk.expire().0, 1_000_000);
        // Only at the next number.
        talk.say(&Packet { flags: RST, ..peer(9, 0) });
        assert_eq!(talk.endpoint.state, State::SynReceived);
        talk.say(&Packet { flags: RST, ..peer(0, 0) });
        assert_eq!((talk.endpoint.state, talk.wait(200_000_000)), (State::Listen, vec![]));
    }
    // What a former peer said of windows and blocks is forgotten.
    talk.say(&syn(OPTIONS));
    talk.say(&Packet { flags: RST, ..peer(0, 0) });
    talk.say(&syn(&[]).window(100));
    talk.wait(0);
    talk.say(&peer(0, 0).text(b"abc").window(100));
    assert_eq!((talk.endpoint.state, talk.read(9)), (State::Established, b"abc".to_vec()));
    assert_eq!(talk.endpoint.sending.write(&[5; 1_000]), 1_000);
    assert_eq!(talk.wait(0)[0].payload, [5; 100]);
    assert_eq!(challenge(&talk.say(&peer(9, 0).text(b"x")), 3).options, []);
}

#[test]
fn old_acknowledgements() {
    // The greatest window that was announced has 0x10000 bytes.
    let mut talk = Talk::<4>::open(64, OPTIONS);
    challenge(&talk.say(&peer(0, 0u32.wrapping_sub(0x1_0001)).text(b"X")), 0);
    assert!(talk.endpoint.receiving.receiver().receiver().is_empty());
    talk.say(&peer(0, 0u32.wrapping_sub(0x1_0000)).text(b"abc"));
    assert_eq!(talk.read(9), b"abc");
    // A greater one was announced.
    talk.say(&peer(3, 0).window(0x4001));
    challenge(&talk.say(&peer(3, 0u32.wrapping_sub(0x1_0005)).text(b"X")), 3);
    talk.say(&peer(3, 0u32.wrapping_sub(0x1_0004)).text(b"def"));
    assert_eq!(talk.read(9), b"def");
}

#[test]
fn resets_and_second_syns() {
    // RFC 5961: only the next number resets; another one in the window, or right after it, is answered.
    for (at, flags, answered, state) in [
        (10, RST, false, State::Reset),
        (10, RST | ACK, false, State::Reset),
        (11, RST, true, State::Established),
        (63, RST, true, State::Established),
        (64, RST, true, State::Established),
        (65, RST, false, State::Established),
        (9, RST, false, State::Established),
        (10, SYN, true, State::Established),
        (10, SYN | ACK, true, State::Established),
        (u32::MAX, SYN, true, State::Established),
        (10, SYN | RST, false, State::Reset),
    ] {
        let mut talk = Talk::<4>::open(64, OPTIONS);
        talk.say(&peer(0, 0).text(&[7; 10]));
        talk.wait(0);
        assert_eq!(talk.read(64), [7; 10]);
        talk.wait(0);
        let said = talk.say(&Packet { flags, ..peer(at, 0) });
        assert_eq!(
            (talk.endpoint.state, said.len()),
            (state, usize::from(answered)),
            "{at} {flags}"
        );
        said.iter().for_each(|said| assert_eq!((said.acked(), said.flags), (10, ACK)));
    }
}

#[test]
fn what_is_not_acceptable() {
    let mut talk = Talk::<4>::open(64, OPTIONS);
    assert_eq!(talk.say(&peer(0, 0).text(b"abc")), []);
    assert_eq!(challenge(&talk.say(&peer(3, 0).text(b"def")), 6).window, 58);
    // Old text, text beyond the window, and what was never sent is acknowledged: answered, not kept.
    for packet in [peer(0, 0).text(b"XYZ"), peer(64, 0).text(b"X"), peer(6, 1).text(b"X")] {
        challenge(&talk.say(&packet), 6);
        assert_eq!(talk.endpoint.receiving.receiver().receiver().queued(), 6);
    }
    // Without the flag ACK nothing is taken, and nothing is answered.
    assert_eq!(talk.say(&Packet { flags: 0, ..peer(6, 0).text(b"X") }), []);
    // From another address too.
    let bytes = peer(6, 0).text(b"X").bytes();
    let (_from, segment) = Segment::parse(&bytes, HERE).unwrap();
    talk.endpoint.take((THERE.0, 1), &segment, talk.now);
    // An old acknowledgement is none; its text is taken, in part old and in part beyond the window.
    let long = [&b"defghi"[..], &[b'-'; 80]].concat();
    assert_eq!(talk.say(&peer(3, u32::MAX).text(&long)), []);
    challenge(&talk.wait(0), 64);
    let kept = [&b"abcdefghi"[..], &[b'-'; 55]].concat();
    assert_eq!(talk.read(100), kept);
}

/// All of a segment came before: the answer says so (RFC 2883), once.
#[test]
fn what_comes_twice_is_reported() {
    let mut talk = Talk::<4>::open(1 << 16, OPTIONS);
    assert_eq!(talk.say(&peer(0, 0).text(b"ab")), []);
    challenge(&talk.say(&peer(2, 0).text(b"cd")), 4);
    assert_eq!(challenge(&talk.say(&peer(0, 0).text(b"XYZ")), 4).blocks(), [(0, 3)]);
    assert_eq!(challenge(&talk.say(&peer(9, 0).text(b"j")), 4).blocks(), [(9, 10)]);
    // Before what waits beyond a hole.
    assert_eq!(challenge(&talk.say(&peer(1, 0).text(b"YZ")), 4).blocks(), [(1, 3), (9, 10)]);
    // Not text of a second SYN; and none that acknowledges what was never sent is kept.
    assert_eq!(challenge(&talk.say(&peer(1, 0).text(b"Y").with(SYN)), 4).blocks(), [(9, 10)]);
    assert_eq!(challenge(&talk.say(&peer(0, 9).text(b"XYZ")), 4).blocks(), [(0, 3), (9, 10)]);
    assert_eq!(talk.read(9), b"abcd");
    // Nor is an end that comes again part of it.
    challenge(&talk.say(&peer(4, 0).text(b"efghi").with(FIN)), 10);
    assert_eq!(challenge(&talk.say(&peer(4, 0).text(b"EFGHI").with(FIN)), 10).blocks(), [(4, 9)]);
    assert_eq!(talk.read(9), b"efghi");
}

#[test]
fn the_end() {
    // In order; out of order; alone; with a window of one byte.
    let mut talk = Talk::<4>::open(64, OPTIONS);
    challenge(&talk.say(&peer(0, 0).text(b"abc").with(FIN)), 4);
    assert_eq!(talk.read(9), b"abc");
    assert!(talk.endpoint.receiving.receiver().has_read_all());
    // Text after it isn't kept, and an end elsewhere is refused.
    for packet in [peer(4, 0).text(b"xyz"), peer(3, 0).text(b"xyz"), peer(4, 0).with(FIN)] {
        challenge(&talk.say(&packet), 4);
        assert!(
            talk.endpoint.receiving.receiver().has_read_all()
                && talk.endpoint.receiving.receiver().receiver().is_empty()
        );
    }
    let mut talk = Talk::<4>::open(64, OPTIONS);
    challenge(&talk.say(&peer(6, 0).with(FIN)), 0);
    challenge(&talk.say(&peer(3, 0).text(b"defgh")), 0);
    challenge(&talk.say(&peer(5, 0).with(FIN)), 0);
    challenge(&talk.say(&peer(0, 0).text(b"abc")), 7);
    assert_eq!(talk.read(9), b"abcdef");
    assert!(talk.endpoint.receiving.receiver().has_read_all());
    // It comes alone, before its bytes: no update of a window follows that would acknowledge them.
    let mut talk = Talk::<4>::open(64, OPTIONS);
    challenge(&talk.say(&peer(3, 0).with(FIN)), 0);
    let mut said = talk.say(&peer(0, 0).text(b"abc"));
    said.extend(talk.wait(0));
    challenge(&said, 4);
    let mut talk = Talk::<4>::open(1, OPTIONS);
    challenge(&talk.say(&peer(0, 0).text(b"a").with(FIN)), 2);
    // The acknowledgement of the endpoint's own FIN is acceptable, though nothing was read.
    talk.endpoint.sending.close();
    let fin = &talk.wait(0)[0];
    assert_eq!((fin.flags, fin.at(), fin.acked()), (FIN | ACK, 0, 2));
    assert_eq!((talk.say(&peer(2, 1)), talk.endpoint.is_closed()), (vec![], true));
    assert_eq!(talk.read(9), b"a");
    // A reset after both ends is no error.
    talk.say(&Packet { flags: RST, ..peer(2, 1) });
    assert_eq!(talk.endpoint.state, State::Established);
}
