//! Windows, segments and timeouts beside the formulas of RFC 5961, 6298, 7323 and 9293, most of them in numbers of 128
//! bits. Net-base's test `model` says how seeds are played.
#[path = "../../tests/model/beside.rs"]
mod beside;
#[allow(dead_code)] // net-base's test calls all
#[path = "../../tests/model/draw.rs"]
mod draw;

use beside::beside_models;
use draw::Draw;
use net_base::time::Duration;
use net_tcp::{
    classify, is_acceptable, is_acknowledgement, scale_for, scaled, AdvertisedWindow, Announcement,
    Arrival, PeerWindow, RetransmissionTimeout, Segment, SentNumbers, TimeoutBounds,
};

beside_models! {
    windows: play_windows,
    timeouts: play_timeouts,
}

fn play_windows(draw: &mut Draw) {
    let next = draw.first().min(u64::MAX - (1 << 40));
    (0..30).for_each(|_| play_segment(draw, next));
    play_announcements(draw, next);
    play_peer(draw, next);
}

fn play_segment(draw: &mut Draw, next: u64) {
    let window = if draw.once_in(4) { 0 } else { draw.size(20).min(20) as u64 };
    let seq =
        if draw.once_in(4) { next.saturating_sub(draw.below(4)) } else { draw.near(next, 30) };
    let len = if draw.once_in(4) { 0 } else { draw.size(20).min(30) as u64 };
    let [syn, ack, rst] = [6, 2, 4].map(|draws| draw.once_in(draws));
    let greatest = if draw.once_in(2) { window } else { window.max(draw.below(30)) };
    draw.call(format_args!("{next} {window} {greatest}: {seq} {len} {syn} {ack} {rst}"));
    // RFC 9293, 3.10.7.4: the four cases.
    let within = |pos: u128| u128::from(next) <= pos && pos < u128::from(next) + u128::from(window);
    let acceptable = match (len, window) {
        (0, 0) => seq == next,
        (0, _) => within(seq.into()),
        (_, 0) => false,
        _ => (0..len.min(99)).any(|i| within(u128::from(seq) + u128::from(i))),
    };
    assert_eq!(is_acceptable(next, window, seq, len), acceptable);
    let is_taken =
        acceptable || len == 0 && u128::from(seq) == u128::from(next) + u128::from(window);
    let is_late = seq < next && next - seq <= greatest.max(1);
    let is_heard = if len == 0 { is_late } else { window == 0 && seq == next };
    let wanted = match (rst, syn, is_taken, is_heard, ack) {
        (true, ..) if seq == next => Arrival::Reset,
        (true, _, true, ..) => Arrival::Answer,
        (true, ..) => Arrival::Ignore,
        (_, true, ..) | (_, _, false, false, _) => Arrival::Answer,
        (.., false) => Arrival::Ignore,
        (_, _, true, ..) => Arrival::Take,
        _ => Arrival::AcknowledgementOnly,
    };
    let segment = Segment { seq, len, syn, ack, rst };
    assert_eq!(classify(next, window, greatest, segment), wanted);
    // RFC 5961, 5.2.
    let numbers = SentNumbers { first_unacknowledged: seq, sent: seq.saturating_add(len) };
    let at = draw.near(seq, 40);
    let is_one = at <= numbers.sent && seq <= at.saturating_add(greatest);
    assert_eq!(is_acknowledgement(numbers, greatest, at), is_one, "{at}");
}

/// A field is a count of units. The greatest scale that is meant is 14 (RFC 7323, 2.3).
fn play_announcements(draw: &mut Draw, first: u64) {
    let capacity = draw.of_these(&[0, 1, 100, 4000, 1 << 31]);
    let (scale, mss) =
        (draw.of_these(&[0, 1, 2, 7, 14, 15, 255]), draw.of_these(&[0, 1, 20, 1460, u16::MAX]));
    let unit = 1u128 << scale.min(14);
    // The least scale by which a field of 16 bits has a size: about its limits, too.
    for size in [capacity, (0x10000 << draw.below(16)) - 2 + draw.below(4)] {
        let wanted = (0..14).find(|&it| u128::from(size) < 0x10000 << it).unwrap_or(14);
        assert_eq!(u32::from(scale_for(size)), wanted, "{size}");
    }
    let field = draw.number() as u16;
    assert_eq!(u128::from(scaled(field, scale)), u128::from(field) * unit);
    let (mut it, mut edge, mut next) =
        (AdvertisedWindow::new(first), u128::from(first), u128::from(first));
    for _ in 0..6 {
        next += u128::from(draw.below(capacity / 2 + 2));
        let less = draw.below(capacity + 1);
        let room = draw.of_these(&[capacity, less]);
        let end = if draw.once_in(5) { next - next.min(1) } else { next + u128::from(room) };
        let kind = draw.below(2);
        draw.call(format_args!("{kind}: {scale} {next} {end} {capacity} {mss}"));
        let field = |end: u128| (end.saturating_sub(next) / unit).min(0xffff);
        let worth = u128::from(capacity.div_ceil(2)).min(mss.into()).max(1);
        let is_due = next <= end && next + field(end) * unit >= edge + worth;
        let [a, b] = [next as u64, end as u64];
        assert_eq!(it.is_update_due(scale, a, b, capacity, mss), is_due);
        let (given, until) = match kind {
            0 => (it.announce(scale, a, b), end),
            _ => (
                it.announce_in_steps(scale, a, b, capacity, mss),
                if is_due { end } else { edge.min(end).max(next) },
            ),
        };
        edge = edge.max(next + field(until) * unit);
        assert_eq!((u128::from(given), u128::from(it.edge())), (field(until), edge));
    }
}

/// The newest segment's window counts, and one that acknowledges more.
fn play_peer(draw: &mut Draw, first: u64) {
    let mut it = PeerWindow::new();
    let (mut edge, mut newest) = (0u64, (0, 0));
    for _ in 0..8 {
        let (seq, ack) = (draw.near(first, 30), draw.near(first, 30));
        let window = if draw.once_in(6) { draw.number() } else { draw.below(60) };
        let numbers =
            SentNumbers { first_unacknowledged: draw.near(first, 9), sent: draw.near(first, 60) };
        draw.call(format_args!("{seq} {ack} {window} {numbers:?}"));
        let is_possible = (numbers.first_unacknowledged..=numbers.sent).contains(&ack);
        let is_taken = is_possible && (ack > newest.1 || (seq, ack) >= newest);
        assert_eq!(it.update(numbers, Announcement { seq, ack, window }), is_taken);
        if is_taken {
            (edge, newest) = (ack.saturating_add(window), (seq, ack));
        }
        if draw.once_in(5) {
            it.open_to(ack);
            edge = edge.max(ack);
        }
        assert_eq!((it.edge(), it.send_limit(ack)), (edge, edge.min(ack)));
        assert_eq!(it.is_probe_allowed(seq, ack), edge <= seq && seq < ack);
        let within = edge.max(numbers.first_unacknowledged).min(numbers.sent);
        assert_eq!(it.empty_segment_position(numbers), within);
    }
}

/// RFC 6298, section 2, in eighths and fourths of microseconds. A sample counts as 2^60 at most.
fn play_timeouts(draw: &mut Draw) {
    let mut bounds = TimeoutBounds::new();
    let [least, most, tick] = [(); 3].map(|()| u128::from(draw.number() >> draw.below(50)));
    let micros = |it: u128| Duration::from_micros(it as u64);
    [bounds.least, bounds.most, bounds.tick] = [least, most, tick].map(micros);
    let bounded = |time: u128| time.min(most).max(least);
    let mut it = RetransmissionTimeout::new(Duration::from_secs(1));
    let (mut estimate, mut timeout) = (None::<(u128, u128)>, 1_000_000);
    for _ in 0..12 {
        let sample = u128::from(draw.number() >> draw.below(60));
        let passes = draw.once_in(3);
        draw.call(format_args!("{sample} {passes} {bounds:?}"));
        if passes {
            it.expired(bounds);
            timeout = bounded((timeout * 2).min(u64::MAX.into()));
        } else {
            it.take_sample(bounds, micros(sample));
            let sample = sample.min(1 << 60);
            let (srtt, rttvar) = match estimate {
                None => (sample * 8, sample * 2),
                Some((srtt, rttvar)) => {
                    (srtt - srtt / 8 + sample, rttvar - rttvar / 4 + (srtt / 8).abs_diff(sample))
                }
            };
            estimate = Some((srtt, rttvar));
            timeout = bounded((srtt / 8 + rttvar.max(tick)).min(u64::MAX.into()));
        }
        assert_eq!(u128::from(it.timeout().total_micros()), timeout);
        assert_eq!(it.rtt().map(|it| it.srtt().total_micros().into()), estimate.map(|it| it.0 / 8));
    }
}
