//! The workloads over the crate net-base, as a library that is linked for each placement.
include!(concat!(env!("OUT_DIR"), "/root.rs"));

use workloads::{COUNT, ORIGINAL, Workload};

/// The workloads in the order of their names.
#[unsafe(no_mangle)]
pub extern "C" fn side_workloads() -> &'static [Workload; COUNT] {
    &ORIGINAL
}
