//! The proved code: erased text of net-base's `src`, as its `overlay/overlay.py` puts it here.
#![allow(missing_docs, dead_code, unused_variables, unused_imports, unused_must_use, clippy::all)]

pub mod rand;

/// Rings, packet queues and assemblers.
pub mod storage {
    pub mod assembler;
    pub mod error;
    pub mod managed;
    pub mod packet_buffer;
    pub mod packet_metadata;
    pub mod packets_head;
    pub mod resettable;
    pub mod ring_buffer;
    pub mod ring_head;

    pub use self::assembler::{
        Assembler, AssemblerHead, HoleIter, IterData, Run, RunIter, TooManyHolesError,
    };
    pub use self::error::{Empty, Full};
    pub use self::managed::{ManagedSlice, Storage};
    pub use self::packet_buffer::{PacketBuffer, PacketsOver};
    pub use self::packet_metadata::PacketMetadata;
    pub use self::packets_head::{PacketPlace, PacketsHead};
    pub use self::resettable::Resettable;
    pub use self::ring_buffer::{RingBuffer, RingOver};
    pub use self::ring_head::{RingHead, Span};
}

/// Moments and lengths of time.
pub mod time {
    mod duration;
    mod inline_text;
    mod instant;

    pub use self::duration::Duration;
    use self::inline_text::InlineText;
    pub use self::instant::Instant;

    const LONGEST_TEXT: usize = 20;
}
