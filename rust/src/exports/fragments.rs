// Written by tools/erase.py from crates/net_ffi/src/fragments.rt: a change here would be lost.
use crate::exports::Run;
use crate::storage::fragments::FragmentsHead;

#[inline(always)]
pub(crate) fn is_plausible(fragments: &FragmentsHead, capacity: usize, run_count: usize) -> bool {
    fragments.present.used <= run_count && (!fragments.has_total || fragments.total <= capacity)
}

#[inline(always)]
pub fn net_base_fragments_complete(
    fragments: &FragmentsHead,
    capacity: usize,
    runs: &[Run],
    size: &mut usize,
) -> bool {
    if !is_plausible(fragments, capacity, runs.len()) {
        return false;
    }
    match fragments.complete(runs) {
        Some(length) => {
            *size = length;
            true
        }
        None => false,
    }
}
