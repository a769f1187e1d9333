//! What a TCP adds: the examples of the RFCs. `model` has calls that are drawn, beside the formulas.
use net_base::time::{Duration, Instant};
use net_tcp::{AnswerLimit, RetransmissionTimeout, Segment, TimeoutBounds};

/// Half a second after an answer another one is sent; text is answered each time, a SYN isn't.
#[test]
fn answers() {
    let (mut limit, at) = (AnswerLimit::new(), Instant::from_millis);
    let [empty, text, syn] =
        [(0, 0x10), (1, 0x10), (1, 0x12)].map(|it| Segment::new(7, it.0, it.1));
    assert!(limit.allows(empty, at(1000)));
    assert_eq!(limit.until, at(1500));
    assert!(
        !limit.allows(empty, at(1499))
            && limit.allows(text, at(1499))
            && !limit.allows(syn, at(1499))
    );
    assert!(limit.allows(syn, at(1500)) && !limit.allows(empty, at(1501)));
}

/// RFC 6298, 2.2, 2.3 and 5.5.
#[test]
fn timeouts() {
    let mut bounds = TimeoutBounds::new();
    [bounds.least, bounds.most] = [1, 60].map(Duration::from_secs);
    bounds.tick = Duration::from_micros(1);
    let mut it = RetransmissionTimeout::new(Duration::from_secs(1));
    it.take_sample(bounds, Duration::from_millis(500));
    assert_eq!(it.timeout(), Duration::from_millis(1500));
    it.take_sample(bounds, Duration::from_millis(900));
    // 0.55 s, and four times 0.2875 s.
    assert_eq!(it.timeout(), Duration::from_millis(1700));
    for seconds in [3_400, 6_800, 13_600, 27_200, 54_400, 60_000, 60_000] {
        it.expired(bounds);
        assert_eq!(it.timeout(), Duration::from_millis(seconds));
    }
}
