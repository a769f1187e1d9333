//! The example endpoint by crafted segments: its own rules one by one, with random segments against
//! a model of what a peer may be sent, and over a path that loses packets.
#![cfg(feature = "alloc")]
mod channel_tests;
mod fuzz;
mod path;
mod peer;
mod receiving;
mod sending;
mod times;

#[allow(dead_code)]
#[path = "../../examples/endpoint/channel.rs"]
mod channel;
#[allow(dead_code)]
#[path = "../../examples/endpoint/settings.rs"]
mod settings;
#[allow(dead_code)]
#[path = "../../examples/endpoint/tcp.rs"]
mod tcp;
#[path = "../../examples/endpoint/timestamps.rs"]
mod timestamps;
#[allow(dead_code)]
#[path = "../../examples/endpoint/wire.rs"]
mod wire;
