//! smoltcp's `storage`, `time` and `rand`, built from its own files by `build.rs`. This file adds doors to what is
//! private.
#![allow(dead_code, unused_imports, unexpected_cfgs, clippy::all)]

extern crate alloc;

include!(concat!(env!("OUT_DIR"), "/root.rs"));

/// What is private to smoltcp.
pub mod doors {
    /// The generator.
    pub struct Rand(crate::rand::Rand);

    impl Rand {
        pub fn new(seed: u64) -> Rand {
            Rand(crate::rand::Rand::new(seed))
        }

        pub fn rand_u32(&mut self) -> u32 {
            self.0.rand_u32()
        }

        pub fn rand_u16(&mut self) -> u16 {
            self.0.rand_u16()
        }

        pub fn rand_source_port(&mut self) -> u16 {
            self.0.rand_source_port()
        }
    }
}
