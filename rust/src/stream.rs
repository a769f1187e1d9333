//! A stream of bytes: what receives it, and what sends it. Public are [`crate::receiver`], [`crate::finite`],
//! [`crate::scoreboard`] and [`crate::sequence_number`].
pub(crate) mod board;
pub(crate) mod finite_receiver;
pub(crate) mod finite_receiver_head;
pub(crate) mod finite_sender;
pub(crate) mod finite_sender_head;
pub(crate) mod held_runs;
pub(crate) mod kept;
pub(crate) mod lent_bytes;
pub(crate) mod numbering;
pub(crate) mod receiver;
pub(crate) mod receiver_head;
pub(crate) mod scoreboard;
pub(crate) mod scoreboard_head;
pub(crate) mod segment_bytes;
pub(crate) mod send_buffer;
pub(crate) mod send_ranges;
pub(crate) mod sender_head;
pub(crate) mod sent_numbers;
pub(crate) mod sequence_number;
pub(crate) mod stream_ranges;
pub(crate) mod stream_receiver;

pub use finite_receiver::{FiniteReceiver, FiniteReceiverOver};
pub use finite_sender::{FiniteSender, FiniteSenderOver};
pub use held_runs::{HeldRunIter, HeldRuns, NewestRunIter};
pub use kept::{FiniteError, Kept, KeptBytes, SegmentParts};
pub use lent_bytes::LentBytes;
pub use numbering::Numbering;
pub use receiver::{Receiver, ReceiverOver};
pub use scoreboard::Scoreboard;
pub use scoreboard_head::ReportError;
pub use segment_bytes::SegmentBytes;
pub use send_buffer::{SendBuffer, SendBufferOver};
pub use send_ranges::{Acknowledged, NotSent, SendRanges, SendRangesOver};
pub use sent_numbers::SentNumbers;
pub use sequence_number::SequenceNumber;
pub use stream_ranges::{StreamRanges, StreamRangesOver};
pub use stream_receiver::{StreamReceiver, StreamReceiverOver};

// Names for other modules.
