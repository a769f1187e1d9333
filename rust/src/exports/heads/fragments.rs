// Written by tools/erase.py from crates/net_ffi/src/heads/fragments.rt: a change here would be lost.
use crate::exports::fragments::is_plausible;
use crate::exports::refusals::{FragmentStatus, SizeStatus, NET_BASE_REFUSED};
use crate::exports::results::status_of_fragment;
use crate::exports::Run;
use crate::storage::fragments::FragmentsHead;

#[inline(always)]
pub fn net_base_fragments_init(fragments: &mut FragmentsHead, expires_at: i64) {
    *fragments = FragmentsHead::new(expires_at);
}

#[inline(always)]
pub fn net_base_fragments_is_sound(
    fragments: &FragmentsHead,
    capacity: usize,
    runs: &[Run],
) -> bool {
    fragments.is_sound(capacity, runs)
}

#[inline(always)]
pub fn net_base_fragments_set_total_size(
    fragments: &mut FragmentsHead,
    capacity: usize,
    runs: &[Run],
    size: usize,
) -> SizeStatus {
    if fragments.present.used > runs.len() {
        return NET_BASE_REFUSED;
    }
    status_of_fragment(fragments.set_total_size(capacity, runs, size))
}

#[inline(always)]
pub fn net_base_fragments_add(
    fragments: &mut FragmentsHead,
    storage: &mut [u8],
    runs: &mut [Run],
    offset: usize,
    data: &[u8],
) -> FragmentStatus {
    if !is_plausible(fragments, storage.len(), runs.len()) {
        return NET_BASE_REFUSED;
    }
    status_of_fragment(fragments.add(storage, runs, offset, data))
}

#[inline(always)]
pub fn net_base_fragments_differs(
    fragments: &FragmentsHead,
    storage: &[u8],
    runs: &[Run],
    offset: usize,
    data: &[u8],
) -> bool {
    if !is_plausible(fragments, storage.len(), runs.len()) {
        return true;
    }
    fragments.differs(storage, runs, offset, data)
}
