//! As much of smoltcp as stands around the modules that the overlay replaces: the number of an assembler's runs.
#![cfg_attr(not(any(test, feature = "std")), no_std)]
#![deny(unsafe_code)]

#[cfg(feature = "alloc")]
extern crate alloc;

pub mod config {
    pub const ASSEMBLER_MAX_SEGMENT_COUNT: usize = 4;
}
mod rand;
pub mod storage;
pub mod time;

#[cfg(all(test, feature = "defmt"))]
mod texts {
    #[test]
    fn defmt() {
        let (text, mut assembler) = (Default::default(), crate::storage::Assembler::new());
        assembler.add(2, 3).unwrap();
        assembler.add(6, 4).unwrap();
        for value in [&assembler as &dyn defmt::Format, &crate::time::Instant::from_millis(-1005), &crate::time::Duration::MAX] {
            value.format(defmt::Formatter(&text));
        }
        assert_eq!(text.into_inner(), "[ (2) 3 (1) 4 ]-1.-05s18446744073709.551s");
    }
}
