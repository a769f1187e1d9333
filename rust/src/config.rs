//! The number of ranges that Cargo features set, under smoltcp's name.

/// The greatest number of the features `assembler-max-segment-count-..` that are on, or 4. Only a type that names it
/// as its `N` has as many ranges. Without an `N` a type has 4, whatever features are on, so that no crate changes the
/// types of another one.
///
/// ```
/// # use net_base::config::ASSEMBLER_MAX_SEGMENT_COUNT;
/// # use net_base::storage::Assembler;
/// let mut assembler = Assembler::<ASSEMBLER_MAX_SEGMENT_COUNT>::empty();
/// assert!(assembler.add(1, 1).is_ok());
/// ```
pub const ASSEMBLER_MAX_SEGMENT_COUNT: usize = if cfg!(feature = "assembler-max-segment-count-32") {
    32
} else if cfg!(feature = "assembler-max-segment-count-16") {
    16
} else if cfg!(feature = "assembler-max-segment-count-8") {
    8
} else if cfg!(feature = "assembler-max-segment-count-4") {
    4
} else if cfg!(feature = "assembler-max-segment-count-3") {
    3
} else if cfg!(feature = "assembler-max-segment-count-2") {
    2
} else if cfg!(feature = "assembler-max-segment-count-1") {
    1
} else {
    4
};
