//! Types beside models: a model has the same calls as a plain value, by numbers, maps and vectors as the
//! documentation has them. Calls are drawn, made on both, and each result and all that can be seen is compared.
//!
//! A failure shows its seed and its calls, of the seed with the fewest. `MODEL_SEEDS=100000 cargo test --test model`
//! plays more seeds than 300.
mod assembler;
mod beside;
mod draw;
mod fragments;
mod packets;
mod ranges;
mod receiver;
mod ring;
mod scoreboard;
mod sender;
mod sums;
#[path = "../support/mod.rs"]
mod support;
mod time;

use beside::beside_models;
use net_base::storage::Storage;

beside_models! {
    rings: ring::play,
    packet_queues: packets::play,
    assemblers: assembler::play,
    receivers: receiver::play,
    receivers_of_streams_that_end: receiver::play_finite,
    receivers_with_runs_in_storage: receiver::play_stream,
    ranges_of_streams: ranges::play,
    senders: sender::play,
    scoreboards: scoreboard::play,
    buffers_of_fragments: fragments::play,
    moments_and_lengths: time::play,
    numbers: time::play_numbers,
    sums: sums::play,
}

/// Moves to the next of some storages, unless that is smaller: then it panics with these words. Returns whether it moved.
fn grows<T, S: Storage<T>>(
    more: &mut Vec<S>,
    had: &mut usize,
    words: &str,
    grow: impl FnOnce(S) -> S,
) -> bool {
    let Some(storage) = more.pop() else { return false };
    let count = storage.count();
    if count < *had {
        assert_eq!(support::message(|| grow(storage)), words);
        return false;
    }
    assert_eq!(grow(storage).count(), std::mem::replace(had, count));
    true
}
