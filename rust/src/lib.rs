//! The part of a network stack that stores bytes: ring buffers, packet queues, reassembly of segments and of IP
//! fragments, buffers of what was sent, times and checksums. Nothing here needs a heap. Each function is
//! [proved](#what-is-proved) to meet its contract, for every input that the contract allows, except for a few parts
//! that are only tested. The crate needs Rust 1.85, and a target of 32 or 64 bits.
//!
//! A ring is a queue in storage that you lend to it:
//!
//! ```
//! use net_base::storage::RingBuffer;
//!
//! let mut storage = [0u8; 8];
//! let mut ring = RingBuffer::new(&mut storage[..]);
//! assert_eq!(ring.enqueue_slice(b"hello, world"), 8); // it takes as many as there is room for
//! let mut text = [0; 5];
//! assert_eq!(ring.dequeue_slice(&mut text), 5);
//! assert_eq!((&text, ring.len()), (b"hello", 3));
//! ```
//!
//! A `FiniteReceiver` puts the segments of a stream in order, each of which is a position and some bytes:
//!
//! ```
//! use net_base::finite::FiniteReceiver;
//!
//! let mut storage = [0u8; 16];
//! let mut receiver = FiniteReceiver::<2>::new(&mut storage[..]); // at most two ranges may wait
//! receiver.keep(4, b"ef", true)?; // the last segment came early, and waits
//! receiver.keep(0, b"abcd", false)?; // the hole is filled
//! let mut text = [0; 16];
//! let count = receiver.read(&mut text);
//! assert_eq!(&text[..count], b"abcdef");
//! assert!(receiver.has_read_all());
//! # Ok::<(), net_base::finite::FiniteError>(())
//! ```
//!
//! # Where to begin
//!
//! | You want | Type |
//! |---|---|
//! | a queue of elements | [`RingBuffer`](storage::RingBuffer) |
//! | a queue of packets | [`PacketBuffer`](storage::PacketBuffer) |
//! | an interrupt's bytes | [`SplitRing`](storage::SplitRing) |
//! | segments in order | [`Receiver`](receiver::Receiver) |
//! | a stream that ends | [`FiniteReceiver`](finite::FiniteReceiver) |
//! | to send a stream | [`SendBuffer`](finite::SendBuffer) |
//! | to send without SACK | [`FiniteSender`](finite::FiniteSender) |
//! | to receive by QUIC | [`StreamRanges`](finite::StreamRanges) |
//! | to send by QUIC | [`SendRanges`](finite::SendRanges) |
//! | the ends of a TCP | crate `net-tcp` |
//! | sequence numbers | [`Numbering`](sequence_number::Numbering) |
//! | SACK blocks | [`Scoreboard`](scoreboard::Scoreboard) |
//! | IP fragments | [`FragmentBuffer`](storage::FragmentBuffer) |
//! | checksums | [`checksum`] |
//! | times, random ports | [`time`], [`rand`] |
//! | frames of a device | [`Device`](phy::Device) |
//!
//! The page of each type has an example. The repository has a program for each task, in `docs/GUIDE.md`, `docs/QUIC.md`
//! and `docs/TCP.md`, and a library for C, in `docs/C.md`.
//!
//! [`storage`] and [`time`] have the names, signatures and behaviour of
//! [smoltcp](https://github.com/smoltcp-rs/smoltcp) 0.14.0, as far as we compared, except where an item says otherwise.
//! The same holds for [`rand`], and for parts of [`phy`].
//!
//! # Storage
//!
//! Types have two kinds of constructors:
//!
//! - `new` and `new_at` take storage that is lent or owned: a `&mut` slice or array, a `Vec`, or a boxed slice. `new_at`
//!   also takes the stream's first position.
//! - `over` and `over_at` take storage of any type, such as an array by value or a type of your own:
//!   `ReceiverOver::<_, 8>::over([0; 256])`. `Receiver` is short for a [`ReceiverOver`](receiver::ReceiverOver) whose
//!   storage is lent or owned, and the page of that type has its calls. So it is with
//!   [`RingOver`](storage::RingOver), [`PacketsOver`](storage::PacketsOver) and the others.
//!
//! `N` is how many ranges may wait. Write it with the type, as in `Receiver::<8>::new(..)`. A type that you write
//! without it, as in `let receiver: Receiver = ..`, has N = 4. A receiver whose `N` is 0 doesn't compile. `Assembler` and
//! `Scoreboard` have no storage: their `new()` has room for 4 ranges, and `Assembler::<8>::empty()` for 8. The ranges of
//! `StreamRanges`, `SendRanges`, `SendBuffer` and `StreamReceiver` are in storage too, so these have no `N`.
//!
//! # What is proved
//!
//! The source is written in Rattle, which is Rust with a contract for each function: what it returns, what it changes,
//! and when it refuses. A prover, which isn't public, and whose `usize` has 64 bits, has checked each body, and then a script took the contracts out. A
//! "Source" link opens what is left, and its first line names the file that has the contracts. A *law* that a page names
//! is a theorem about many calls. `docs/laws.md` of the repository has them all.
//!
//! These parts are only tested: `Debug`, conversions from slices, arrays, vectors, boxes and numbers, arrays and boxes as
//! storage, std's traits such as `Deref`, `Hash`, `Sum`, `Read` and `Write`, std's clocks, the traits and devices of
//! [`phy`], and all of a [`SplitRing`](storage::SplitRing) except the arithmetic of its indices. The crate ran under
//! emulators for ARM and RISC-V, but never on a board.
//!
//! # Panics
//!
//! A call panics only if you break a precondition, which its page names, and then in every build. A conversion of std's
//! clocks panics if the moment doesn't fit. [`keep`](receiver::ReceiverOver::keep) and most other calls that take data
//! from a packet have no precondition. `docs/GUIDE.md` and `docs/DIFFERENCES.md` of the repository list those calls that
//! have one and take a number, such as [`segment`](receiver::ReceiverOver::segment).
//!
//! # Guarantees
//!
//! A section of this name, on a function's page, quotes statements of its contract in Rust's words. `old(x)` is x
//! before the call, and `x` what it is afterwards. In these statements numbers never overflow, and a slice that reaches
//! past the end is cut short. `docs/CONTRACTS.md` of the repository explains the names in them that no call has.
//!
//! # Features
//!
//! - `std`, on by default: conversions from and to std's clocks, readers and writers, and `alloc`
//! - `alloc`: storage may own a vector
//! - `segmentation-offload`: a field of `PacketMeta`
//! - `assembler-max-segment-count-1`, and others up to 32, set
//!   [`ASSEMBLER_MAX_SEGMENT_COUNT`](config::ASSEMBLER_MAX_SEGMENT_COUNT), which a program can name as `N`. The largest
//!   one counts. Without any the constant is 4. `Assembler::new()` has room for 4 ranges whatever the constant is.
//!
//! These features of smoltcp are accepted, and change nothing: `packetmeta-id`, `medium-ethernet`, `medium-ip`,
//! `proto-ipv4-fragmentation`, `proto-ipv4` and `proto-ipv6`.
#![no_std]
#![cfg_attr(docsrs, feature(doc_cfg))]
#![forbid(unsafe_code)]
#![deny(missing_docs, missing_debug_implementations, unnameable_types)]

#[cfg(feature = "alloc")]
extern crate alloc;
#[cfg(any(feature = "std", test))]
extern crate std;

#[cfg(not(any(target_pointer_width = "32", target_pointer_width = "64")))]
compile_error!("a `usize` has 32 or 64 bits");

pub mod checksum;
pub mod config;
#[cfg(test)]
mod error_texts;
pub mod finite;
#[doc(hidden)]
pub mod internal;
pub mod managed;
pub mod phy;
pub mod rand;
pub mod receiver;
pub mod scoreboard;
pub mod sequence_number;
pub mod storage;
mod stream;
pub mod time;

#[cfg(doctest)]
#[doc = include_str!("refused.txt")]
struct Refused;
