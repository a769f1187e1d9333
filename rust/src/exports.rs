//! The exports for C, over references and slices, and their structs. What of other modules they alone call is in
//! `for_c`.
pub mod answer_limit;
#[cfg(test)]
mod extremes;
pub mod finite_receiver;
pub mod fragments;
mod for_c {
    mod assembler_head;
    mod finite_receiver_head;
    mod finite_sender_head;
    mod fragments_head;
    pub(super) mod packet_slot;
    pub(super) mod packets_head;
    mod receiver_head;
    mod ring_head;
    mod scoreboard_head;
    mod sender_head;
    mod tcp_buffer;
}
pub mod heads;
pub mod packets;
pub mod receiver;
pub mod receiving_end;
pub mod refusals;
pub mod results;
pub mod retransmission;
pub mod sending_end;
pub mod sequence_number;

// Names for the modules here.
use crate::ends::{Acknowledged, Expired, Outgoing};
use crate::stream::{FiniteError, KeptBytes, SequenceNumber};
use crate::tcp::{AnswerLimit, Arrival, Expiry, Sack, TimeoutBounds};

pub use for_c::packet_slot::PacketSlot;
pub use for_c::packets_head::FirstPacket;

pub use crate::checksum::PartsSum;
pub use crate::ends::receiving_end::{ReceivingHead, Room};
pub use crate::ends::sending_head::SendingHead;
pub use crate::ends::tcp_buffer::{BufferHead, Queued};
pub use crate::storage::assembler::{AssemblerHead, Run};
pub use crate::storage::fragments::FragmentsHead;
pub use crate::storage::packets_head::{PacketPlace, PacketsHead};
pub use crate::storage::ring_head::{RingHead, Span};
pub use crate::stream::finite_receiver_head::FiniteReceiverHead;
pub use crate::stream::finite_sender_head::FiniteSenderHead;
pub use crate::stream::held_runs::HeldRun;
pub use crate::stream::receiver_head::ReceiverHead;
pub use crate::stream::scoreboard_head::ScoreboardHead;
pub use crate::stream::sender_head::SenderHead;
pub use crate::stream::sent_numbers::SentNumbers;
pub use crate::tcp::loss_recovery::{RecoveryCopies, RecoveryMark, RecoveryPass, RecoveryProbe};
pub use crate::tcp::{AdvertisedWindow, Announcement, LossRecovery, PeerWindow};
pub use crate::tcp::{RetransmissionTimer, Segment};
