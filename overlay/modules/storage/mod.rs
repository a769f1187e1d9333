//! Rings, packet queues and assemblers, over storage that is lent or owned.
//!
//! They are those of `crate::proved`, whose rules are proved. What Rattle has no words for is here.

mod assembler;
mod packet_buffer;
mod ring_buffer;

pub use self::assembler::Assembler;
pub use crate::proved::storage::{
    Empty, Full, PacketBuffer, PacketMetadata, Resettable, RingBuffer,
};

// Documentation shows the methods of an alias only where it shows the type.
#[cfg(doc)]
pub use crate::proved::storage::{Assembler as AssemblerOf, PacketsOver, RingOver, Storage};
