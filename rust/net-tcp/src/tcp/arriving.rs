// Written by tools/erase.py from crates/net_tcp/src/arriving.rt: a change here would be lost.
//! What to do with an arriving segment.

// Why: What a segment without bytes acknowledges counts a whole window below the first missing position, and at the
// window's edge, where RFC 9293's table has neither. A sender's number is its window's end, if it sent beyond that, and
// what it knows of the window may be older than what it sent: by a probe, by rounding, by an answer that was overtaken.
// It has no more on the way than the greatest window, so by law `acknowledgements` that bound is exact. A unit of the
// scale isn't enough where the order changes. A forger off the path has at most a window more of numbers for such a
// segment, and the check of what it acknowledges (RFC 5961, section 5) stays. The sender's number stays at the window's
// end, as Linux has it, since other receivers take none beyond.

use net_base::finite::SentNumbers;

/// The positions and the flags of an arriving segment.
///
/// ```
/// use net_tcp::Segment;
///
/// // Five bytes at position 95, with the flags FIN, ACK and PSH: the FIN has a position, too.
/// let segment = Segment::new(95, 5, 0x19);
/// assert_eq!((segment.len, segment.ack, segment.syn), (6, true, false));
/// ```
#[repr(C)]
#[derive(Copy, Clone, Debug, PartialEq, Eq, Hash)]
pub struct Segment {
    /// The position of its first byte, or of its SYN.
    pub seq: u64,
    /// How many positions it has: its bytes, and one each for a SYN and a FIN.
    pub len: u64,
    /// Whether its flag SYN is set.
    pub syn: bool,
    /// Whether its flag ACK is set.
    pub ack: bool,
    /// Whether its flag RST is set.
    pub rst: bool,
}

impl Segment {
    /// Returns the segment of so many bytes, with the flags of a TCP header: bit 0 is FIN, bit 1 SYN, bit 2
    /// RST and bit 4 ACK, and others don't count. A SYN and a FIN have a position each.
    ///
    /// ```
    /// # use net_tcp::Segment;
    /// let opening = Segment { seq: 95, len: 1, syn: true, ack: false, rst: false };
    /// assert_eq!(Segment::new(95, 0, 0x02), opening);
    /// ```
    #[must_use]
    pub const fn new(seq: u64, bytes: usize, flags: u8) -> Self {
        Segment {
            seq,
            len: (bytes as u64).saturating_add((flags >> 1 & 1) as u64 + (flags & 1) as u64),
            syn: flags >> 1 & 1 == 1,
            ack: flags >> 4 & 1 == 1,
            rst: flags >> 2 & 1 == 1,
        }
    }
}

/// What to do with a segment that arrives on a connection that both ends have opened.
///
/// ```
/// use net_tcp::{classify, Arrival, Segment};
///
/// // What is to be done with a segment of one byte at 99, where 100 is missing.
/// match classify(100, 10, 10, Segment::new(99, 1, 0x10)) {
///     Arrival::Answer => println!("it came before: acknowledge again"),
///     other => panic!("{other:?}"),
/// }
/// ```
#[derive(Copy, Clone, Debug, PartialEq, Eq)]
pub enum Arrival {
    /// Take what it acknowledges, its window, its bytes and its end.
    Take,
    /// Take what it acknowledges and its window, but not its bytes, and answer it: this end's window is shut, and the
    /// peer asks whether it has opened; or the segment has no position, and its sequence number is below that of the
    /// first missing one, as it may be before the peer has heard of that, or to ask whether this end is there.
    AcknowledgementOnly,
    /// Send an acknowledgement, and take nothing. Of bytes that all came before it reports so (RFC 2883), if the
    /// receiving end was told: `ReceivingEndOver::arrived` keeps none of them.
    Answer,
    /// Take nothing, and send nothing.
    Ignore,
    /// The peer has reset the connection.
    Reset,
}

/// Returns whether a segment is acceptable to a receiver whose first missing position is `next`, and
/// which announced `window` positions from there on. The segment's first position is `seq`, and it
/// has `len` positions: its bytes, and one each for a SYN and a FIN.
///
/// It is if it has a position within the window. If it has none at all it must be within the window
/// itself, or at `next` if the window is empty.
///
/// ```
/// use net_tcp::is_acceptable;
///
/// // Position 100 is missing, and ten were announced.
/// assert!(is_acceptable(100, 10, 95, 6) && is_acceptable(100, 10, 109, 50));
/// assert!(!is_acceptable(100, 10, 95, 5) && !is_acceptable(100, 10, 110, 1));
/// ```
#[must_use]
pub fn is_acceptable(next: u64, window: u64, seq: u64, len: u64) -> bool {
    if seq < next {
        window > 0 && next - seq < len
    } else if len == 0 && window == 0 {
        seq == next
    } else {
        seq - next < window
    }
}

/// Returns whether all of a segment is taken: if it is acceptable, or if it has no position, and its
/// number is the one after the window.
fn is_taken(next: u64, window: u64, seq: u64, len: u64) -> bool {
    let is_at_edge = len == 0 && next <= seq && seq - next == window;
    is_at_edge || is_acceptable(next, window, seq, len)
}

/// Returns whether what a segment acknowledges is taken, and nothing else: if it probes a window that is
/// shut, or if it has no position, and its number is below `next`, but by no more than the greatest window.
fn is_heard(next: u64, window: u64, greatest_window: u64, seq: u64, len: u64) -> bool {
    if len > 0 {
        window == 0 && seq == next
    } else {
        seq < next && next - seq <= greatest_window.max(1)
    }
}

/// Returns what to do with a segment, for a receiver whose first missing position is `next`, which
/// announced `window` positions from there on, and never more than `greatest_window`: its capacity will do.
/// It is as RFC 9293, section 3.10.7.4, has it, but for what follows. Resets and SYNs are answered as RFC
/// 5961 has it: a reset counts only at `next`. One right after the window is answered too, as in Linux: a peer that
/// has filled the window resets there, and its next reset is then at `next`.
///
/// No position is in a window that is shut. Of a segment with positions that begins at `next` then, as a probe does,
/// the acknowledgement is taken all the same: otherwise two ends that both fill the other's window never hear of one
/// another. So it is of a segment without positions whose number is below `next`, by `greatest_window` at most, and by
/// one if that is 0. No honest peer's number is below that: it is not below what was acknowledged to the peer, which
/// has no more than such a window on the way, or a probe. If all of the window is on the way, and some of it is
/// missing, its number is the one after the window: that is taken too. By law `acknowledgements` (`docs/laws.md`) no
/// other number is needed. Otherwise two ends whose acknowledgements were lost, or came in another order, may refuse
/// one another's for ever, and answer each.
///
/// Whether a segment may acknowledge what it does is tested afterwards, by `is_acknowledgement`.
///
/// ```
/// use net_tcp::{classify, Arrival, Segment};
///
/// let (syn, ack, rst) = (0x02, 0x10, 0x04);
/// let arrival = |seq, bytes, flags| classify(100, 10, 10, Segment::new(seq, bytes, flags));
/// assert_eq!(arrival(100, 8, ack), Arrival::Take);
/// assert_eq!(arrival(110, 8, ack), Arrival::Answer); // beyond the window
/// assert_eq!(arrival(100, 8, syn | ack), Arrival::Answer);
/// assert_eq!((arrival(100, 0, rst), arrival(101, 0, rst)), (Arrival::Reset, Arrival::Answer));
/// assert_eq!((arrival(110, 0, rst), arrival(111, 0, rst)), (Arrival::Answer, Arrival::Ignore));
/// // A window that is shut is probed.
/// let probe = Segment::new(100, 1, ack);
/// assert_eq!(classify(100, 0, 10, probe), Arrival::AcknowledgementOnly);
/// ```
#[must_use]
pub fn classify(next: u64, window: u64, greatest_window: u64, segment: Segment) -> Arrival {
    let is_taken = is_taken(next, window, segment.seq, segment.len);
    let is_heard = is_heard(next, window, greatest_window, segment.seq, segment.len);
    if segment.rst {
        if segment.seq == next {
            Arrival::Reset
        } else if is_taken {
            Arrival::Answer
        } else {
            Arrival::Ignore
        }
    } else if segment.syn || !is_taken && !is_heard {
        Arrival::Answer
    } else if !segment.ack {
        Arrival::Ignore
    } else if is_taken {
        Arrival::Take
    } else {
        Arrival::AcknowledgementOnly
    }
}

/// Returns whether a segment may acknowledge `ack`: it isn't above what was sent, nor below the first
/// unacknowledged position by more than the greatest window that the peer ever announced (RFC 5961,
/// section 5). If it may not, nothing of the segment is taken, and it is answered.
///
/// ```
/// use net_tcp::{is_acknowledgement, SentNumbers};
///
/// let numbers = SentNumbers { first_unacknowledged: 100, sent: 150 };
/// assert!(is_acknowledgement(numbers, 20, 150) && is_acknowledgement(numbers, 20, 80));
/// assert!(!is_acknowledgement(numbers, 20, 151) && !is_acknowledgement(numbers, 20, 79));
/// ```
///
/// # [Guarantees](crate#guarantees)
///
/// - `result` exactly if `numbers.first_unacknowledged <= ack + greatest_window` and `ack <= numbers.sent`
#[must_use]
pub fn is_acknowledgement(numbers: SentNumbers, greatest_window: u64, ack: u64) -> bool {
    let behind = numbers.first_unacknowledged.saturating_sub(ack);
    behind <= greatest_window && ack <= numbers.sent
}
