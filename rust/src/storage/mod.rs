//! Byte rings, packet queues, assemblers and fragment buffers, over storage that is lent or owned.
//!
//! A [`RingBuffer`] is a queue of elements, a [`PacketBuffer`] one of whole packets, and a [`SplitRing`] one of bytes
//! that an interrupt fills. An [`Assembler`] knows which ranges have arrived, and a [`FragmentBuffer`] puts a packet
//! together. Names say *run* for a range.
//!
//! ```
//! use net_base::storage::{Assembler, RingBuffer, RingOver, SplitRing};
//!
//! let mut storage = [0u8; 16];
//! let lent = RingBuffer::new(&mut storage); // or over a slice or a `Vec`
//! let owned = RingOver::over([0u8; 16]); // an array by value
//! assert_eq!((lent.window(), owned.window()), (16, 16));
//! // `Assembler::new()` has room for 4 ranges.
//! let eight = Assembler::<8>::empty();
//! assert!(eight.is_empty());
//! // An interrupt writes, and the main loop reads.
//! static SHARED: SplitRing<64> = SplitRing::new();
//! assert_eq!((SHARED.write(b"abc"), SHARED.read(&mut [0; 8])), (3, 3));
//! ```
//!
//! Not proved, but tested: `Debug`, conversions of storage, arrays and boxes as storage, and impls of std's traits.
mod by_hand;
#[cfg(feature = "std")]
mod by_hand_io;
mod by_hand_split_ring;

pub(crate) mod assembler;
pub(crate) mod error;
pub(crate) mod fragments;
pub(crate) mod managed;
pub(crate) mod packet_buffer;
pub(crate) mod packet_metadata;
pub(crate) mod packets_head;
pub(crate) mod resettable;
pub(crate) mod ring_buffer;
pub(crate) mod ring_head;
pub(crate) mod split_counts;

use core::sync::atomic;

pub use assembler::{Assembler, HoleIter, IterData, Run, RunIter, TooManyHolesError};
pub use by_hand_split_ring::{SplitReader, SplitRing, SplitWriter};
pub use error::{Empty, Full};
pub use fragments::table as fragment_table;
pub use fragments::{FragmentBuffer, FragmentError, FragmentsOver};
pub use managed::Storage;
pub use packet_buffer::{PacketBuffer, PacketsOver};
pub use packet_metadata::PacketMetadata;
pub use resettable::Resettable;
pub use ring_buffer::{Iter, RingBuffer, RingOver};
pub use ring_head::Span;
pub use split_counts::{SplitCounts, SplitSpan};

// Names for other modules.
pub(crate) use assembler::AssemblerHead;
pub(crate) use by_hand::Listed;
pub(crate) use managed::ManagedSlice;
pub(crate) use ring_head::RingHead;
