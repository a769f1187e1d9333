//! The modules of net-base and of net-tcp, and the exports for C, which call what is private in them: the root of the
//! crate in `rust/exports`, for the one in `c`. The published crates have none of it.
#![no_std]
#![forbid(unsafe_code)]
#![deny(unreachable_pub)]

#[cfg(feature = "alloc")]
extern crate alloc;
#[cfg(any(feature = "std", test))]
extern crate std;

// What net-tcp calls net-base is here, too.
extern crate self as net_base;

pub mod checksum;
pub mod config;
#[path = "../net-tcp/src/ends/mod.rs"]
pub mod ends;
pub mod exports;
pub mod finite;
pub mod internal;
pub mod managed;
pub mod phy;
pub mod rand;
pub mod receiver;
pub mod scoreboard;
pub mod sequence_number;
pub mod storage;
mod stream;
#[path = "../net-tcp/src/tcp/mod.rs"]
pub mod tcp;
pub mod time;
