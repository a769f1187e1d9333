//! Both ends of a TCP connection: a [`SendingEnd`], with its loss recovery, and a [`ReceivingEnd`]. They are over the
//! buffers of [`net_base`], and need no heap. They are proved for every input, except for conversions, `Debug` and
//! defaults, as the [crate `net_base`](net_base#what-is-proved) says. The crate needs Rust 1.85.
//!
//! The ends know positions, times and bytes, but no headers, no states of a connection and no clock. How much may be in
//! flight is the caller's choice. `docs/TCP.md` of the repository has the order of their calls. In QUIC the connection
//! has the timer and finds the losses, so its streams have [`SendRanges`](net_base::finite::SendRanges).
//!
//! ```
//! use net_base::time::{Duration, Instant};
//! use net_tcp::{Announcement, ReceivingEnd, Sack, SendingEnd, TimeoutBounds};
//!
//! let (mut out, mut into, now) = ([0; 64], [0; 64], Instant::ZERO);
//! let mut sending =
//!     SendingEnd::<4>::new(&mut out, Duration::from_secs(1), TimeoutBounds::new());
//! let mut receiving = ReceivingEnd::<4>::new(&mut into, 8);
//! // Segments of at most 8 bytes, and a peer that has room for 64.
//! sending.open(Announcement { seq: 0, ack: 0, window: 64 }, 8, Sack::Permitted, now);
//! assert_eq!(sending.write(b"hello world"), 11);
//! sending.set_nagle_enabled(false);
//! while let Some(segment) = sending.next_segment(u64::MAX, now) {
//!     let lent = sending.bytes(segment.range());
//!     assert!(lent.back.is_empty() && !lent.fin);
//!     receiving.arrived(segment.pos, lent.front, lent.fin)?;
//! }
//! let mut text = [0; 64];
//! let count = receiving.read(&mut text);
//! assert_eq!(&text[..count], b"hello world");
//! # Ok::<(), net_base::finite::FiniteError>(())
//! ```
//!
//! # The parts
//!
//! An end is made of these parts, which can also be used alone:
//!
//! | You ask | Take |
//! |---|---|
//! | what to do with an arriving segment | [`classify`] |
//! | how often to answer one that isn't taken | [`AnswerLimit`] |
//! | which window to announce | [`AdvertisedWindow`] |
//! | how far the peer lets you send | [`PeerWindow`] |
//! | when to send again, or to probe | [`RetransmissionTimer`] |
//! | how long a round trip takes, and a timeout | [`RttEstimate`], [`RetransmissionTimeout`] |
//!
//! # Guarantees
//!
//! A function's page has some statements of its contract, as in [net-base](net_base#guarantees).
//!
//! # Features
//!
//! - `std`, on by default: that of net-base
//! - `alloc`: storage may own a vector
#![no_std]
#![cfg_attr(docsrs, feature(doc_cfg))]
#![forbid(unsafe_code)]
#![deny(missing_docs, missing_debug_implementations, unnameable_types)]

#[cfg(test)]
extern crate std;

mod ends;
mod tcp;

pub use ends::{
    AckFields, AckSegment, Acknowledged, Acknowledgement, Expired, Outgoing, ReceivingEnd,
    ReceivingEndOver, SackBlocks, SendingEnd, SendingEndOver,
};
pub use net_base::finite::{SegmentBytes, SentNumbers};
pub use tcp::{
    classify, is_acceptable, is_acknowledgement, scale_for, scaled, AdvertisedWindow, Announcement,
    AnswerLimit, Arrival, Expiry, PeerWindow, RetransmissionTimeout, RetransmissionTimer,
    RttEstimate, Sack, Segment, TimedSegment, TimeoutBounds, Transmission, MAX_SCALE,
};
// A part of `SendingEnd`, for tests of its steps alone: it may change in any version.
#[doc(hidden)]
pub use tcp::{Answer, Before, LossRecovery, Reported};
