//! The parts of a TCP connection: what to do with an arriving segment, the windows of both sides, the time until a
//! retransmission, its timer, and loss recovery.
pub(crate) mod advertised_window;
pub(crate) mod answer_limit;
pub(crate) mod arriving;
pub(crate) mod duplicate_block;
pub(crate) mod equal_acknowledgement;
pub(crate) mod loss_recovery;
pub(crate) mod peer_window;
pub(crate) mod reported;
pub(crate) mod retransmission;
pub(crate) mod retransmission_timer;
pub(crate) mod sack;

pub use advertised_window::{scale_for, AdvertisedWindow, MAX_SCALE};
pub use answer_limit::AnswerLimit;
pub use arriving::{classify, is_acceptable, is_acknowledgement, Arrival, Segment};
pub use loss_recovery::{Answer, Before, LossRecovery};
pub use peer_window::{scaled, Announcement, PeerWindow};
pub use reported::Reported;
pub use retransmission::{RetransmissionTimeout, RttEstimate, TimeoutBounds, Transmission};
pub use retransmission_timer::{Expiry, RetransmissionTimer, TimedSegment};
pub use sack::Sack;

// Names for other modules.
pub(crate) use duplicate_block::is_duplicate_block;
pub(crate) use equal_acknowledgement::is_equal_acknowledgement;
pub(crate) use reported::LentScoreboard;

use net_base::time::Duration;

/// No recovery is active, and nothing came twice.
impl Default for LossRecovery {
    fn default() -> Self {
        LossRecovery::new()
    }
}

/// Before any answer.
impl Default for AnswerLimit {
    fn default() -> Self {
        AnswerLimit::new()
    }
}

/// Of a stream whose first number is 0.
impl Default for AdvertisedWindow {
    fn default() -> Self {
        AdvertisedWindow::new(0)
    }
}

/// The window before any segment.
impl Default for PeerWindow {
    fn default() -> Self {
        PeerWindow::new()
    }
}

/// A timeout of one second, before the first sample (RFC 6298, 2.1).
impl Default for RetransmissionTimeout {
    fn default() -> Self {
        RetransmissionTimeout::new(Duration::from_secs(1))
    }
}

/// One that doesn't run, with a timeout of one second (RFC 6298, 2.1), and a peer that reports no blocks: no probe is
/// due.
impl Default for RetransmissionTimer {
    fn default() -> Self {
        RetransmissionTimer::new(Duration::from_secs(1), Sack::Absent)
    }
}

impl TimeoutBounds {
    /// Returns at least one second and at most 60, by a clock of milliseconds (RFC 6298, 2.4 and 2.5), where an
    /// acknowledgement is delayed by 200 ms at most (RFC 8985, 7.2). Fields that are to differ are set.
    ///
    /// ```
    /// use net_tcp::TimeoutBounds;
    /// use net_base::time::Duration;
    ///
    /// const BOUNDS: TimeoutBounds = {
    ///     let mut bounds = TimeoutBounds::new();
    ///     bounds.least = Duration::from_millis(200);
    ///     bounds
    /// };
    /// assert_eq!((BOUNDS.least.total_millis(), BOUNDS.most.secs()), (200, 60));
    /// ```
    #[must_use]
    pub const fn new() -> Self {
        TimeoutBounds {
            least: Duration::from_secs(1),
            most: Duration::from_secs(60),
            tick: Duration::from_millis(1),
            ack_delay: Duration::from_millis(200),
        }
    }
}

/// Those of [`new`](Self::new).
impl Default for TimeoutBounds {
    fn default() -> Self {
        TimeoutBounds::new()
    }
}

#[cfg(test)]
mod tests {
    use super::*;
    use net_base::finite::SentNumbers;
    use net_base::time::Instant;

    /// Each part, alone.
    #[test]
    fn parts() {
        // A segment has a part of a window of 10 from 100 on, or it is answered; a probe of a shut window acknowledges.
        let text = |seq, bytes| Segment::new(seq, bytes, 0x10);
        assert_eq!(classify(100, 10, 10, text(95, 6)), Arrival::Take);
        assert_eq!(classify(100, 10, 10, text(95, 5)), Arrival::Answer);
        assert_eq!(classify(100, 0, 10, text(100, 1)), Arrival::AcknowledgementOnly);
        let advertised = AdvertisedWindow::new(110);
        assert_eq!(advertised.classify(100, 10, text(110, 1)), Arrival::Answer);
        // One without bytes may be behind by the greatest window: its sender may not know that all below 100 has come.
        assert_eq!(classify(100, 0, 10, text(90, 0)), Arrival::AcknowledgementOnly);
        assert_eq!(classify(100, 0, 10, text(89, 0)), Arrival::Answer);
        // A SYN and a FIN count; with ACK and PSH.
        let opening = Segment { seq: 95, len: 7, syn: true, ack: true, rst: false };
        assert_eq!(Segment::new(95, 5, 0x1b), opening);
        // The peer's window ends at 150, and a probe was sent there: an acknowledgement isn't beyond the window.
        let peer_window = PeerWindow::of(Announcement { seq: 0, ack: 150, window: 0 });
        let numbers = SentNumbers { first_unacknowledged: 150, sent: 151 };
        assert_eq!(peer_window.empty_segment_position(numbers), 150);
        // A round trip of 100 ms, and then a timeout that passes.
        let mut bounds = TimeoutBounds::new();
        bounds.least = Duration::from_millis(200);
        let mut timer = RetransmissionTimeout::default();
        timer.acknowledged(bounds, Transmission::Once(Instant::ZERO), Instant::from_millis(100));
        assert_eq!(timer.timeout(), Duration::from_millis(300));
        timer.expired(bounds);
        assert_eq!(timer.timeout(), Duration::from_millis(600));
        // Three segments are sent at 0 to a peer that reports blocks, one is acknowledged after 100 ms, and the others
        // aren't in time: a probe is due after two more round trips, and the timeout passes when it would have passed
        // without it.
        let mut timer = RetransmissionTimer::new(Duration::from_secs(1), Sack::Permitted);
        for (from, to) in [(0, 10), (10, 20), (20, 30)] {
            timer.sent(
                bounds,
                from..to,
                SentNumbers { first_unacknowledged: 0, sent: from },
                Instant::ZERO,
            );
        }
        let numbers = SentNumbers { first_unacknowledged: 0, sent: 30 };
        timer.acknowledged(bounds, numbers, 10, Instant::from_millis(100));
        assert_eq!(timer.timeout(), Duration::from_millis(300));
        assert_eq!(timer.expires_at(), Some(Instant::from_millis(300)));
        assert_eq!(timer.expire(bounds, Instant::from_millis(300)), Some(Expiry::Probe));
        assert_eq!(timer.expires_at(), Some(Instant::from_millis(400)));
        assert_eq!(timer.expire(bounds, Instant::from_millis(400)), Some(Expiry::Timeout));
        assert_eq!(timer.expires_at(), Some(Instant::from_millis(1_000)));
        assert_eq!(timer.timeouts(), 1);
    }

    /// Eight times the smoothed time, and four times its variation (RFC 6298, 2). After a sample of 800 ms the
    /// variation is 400 ms. After one of 400 ms more the time is 750 ms, and the variation 400 ms. No sample is above
    /// 2^60 microseconds.
    #[test]
    fn estimates() {
        let (micros, scaled) = (Duration::from_micros, RttEstimate::from_scaled);
        for (time, srtt_8, rttvar_4) in [
            (100_000, 800_000, 200_000),
            (800_000, 6_400_000, 1_600_000),
            (u64::MAX, 1 << 63, 1 << 61),
        ] {
            assert_eq!(RttEstimate::first(micros(time)), scaled(srtt_8, rttvar_4));
        }
        for (before, time, after) in [
            ((800_000, 200_000), 100_000, (800_000, 150_000)),
            ((6_400_000, 1_600_000), 400_000, (6_000_000, 1_600_000)),
            ((15, 7), 0, (14, 7)),
            (((1 << 63) + 1, 440_639_728_830), 1 << 60, (1 << 63, 330_479_796_623)),
        ] {
            let estimate = scaled(before.0, before.1).with_sample(micros(time));
            assert_eq!(estimate, scaled(after.0, after.1));
        }
        assert_eq!(scaled(u64::MAX, u64::MAX), scaled(1 << 63, 1 << 62));
    }

    /// The time and four times its variation, or one tick. The least timeout may be above the greatest one.
    #[test]
    fn timeouts_of_estimates() {
        let timeout = |srtt_8, rttvar_4, least, most, tick| {
            let mut bounds = TimeoutBounds::new();
            [bounds.least, bounds.most, bounds.tick] =
                [least, most, tick].map(Duration::from_micros);
            RttEstimate::from_scaled(srtt_8, rttvar_4).timeout(bounds).total_micros()
        };
        let (least, most) = (1_000_000, 60_000_000);
        assert_eq!(timeout(6_400_000, 1_600_000, least, most, 1), 2_400_000);
        assert_eq!(timeout(6_000_000, 1_600_000, least, most, 1), 2_350_000);
        assert_eq!(timeout(800_000, 200_000, 0, most, 1), 300_000);
        assert_eq!(timeout(800_000, 200_000, least, most, 1), 1_000_000);
        assert_eq!(timeout(800_000, 200_000, 2_000_000, 1_500_000, 1), 2_000_000);
        assert_eq!(timeout(8_000, 0, 0, most, 10), 1_010);
        let made = RetransmissionTimeout::from_parts(None, Duration::from_micros(7));
        assert_eq!((made.rtt(), made.timeout()), (None, Duration::from_micros(7)));
    }
}
