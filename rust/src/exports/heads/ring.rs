// Written by tools/erase.py from crates/net_ffi/src/heads/ring.rt: a change here would be lost.
use crate::exports::refusals::{no_number, refused_span};
use crate::exports::{RingHead, Span};

#[inline(always)]
pub fn net_base_ring_init(ring: &mut RingHead) {
    *ring = RingHead::new();
}

#[inline(always)]
pub fn net_base_ring_unallocated(
    ring: &RingHead,
    capacity: usize,
    offset: usize,
    size: usize,
) -> Span {
    if !ring.is_sound(capacity) {
        return refused_span();
    }
    ring.unallocated(capacity, offset, size)
}

#[inline(always)]
pub fn net_base_ring_allocated(
    ring: &RingHead,
    capacity: usize,
    offset: usize,
    size: usize,
) -> Span {
    if !ring.is_sound(capacity) {
        return refused_span();
    }
    ring.allocated(capacity, offset, size)
}

#[inline(always)]
pub fn net_base_ring_enqueue(ring: &mut RingHead, capacity: usize, count: usize) -> bool {
    if !ring.is_sound(capacity) || count > capacity - ring.length {
        return false;
    }
    ring.enqueue(capacity, count);
    true
}

#[inline(always)]
pub fn net_base_ring_dequeue(ring: &mut RingHead, capacity: usize, count: usize) -> bool {
    if !ring.is_sound(capacity) || count > ring.length {
        return false;
    }
    ring.dequeue(capacity, count);
    true
}

#[inline(always)]
pub fn net_base_ring_enqueue_slice(ring: &mut RingHead, storage: &mut [u8], data: &[u8]) -> usize {
    if !ring.is_sound(storage.len()) {
        return no_number();
    }
    ring.enqueue_slice(storage, data)
}

#[inline(always)]
pub fn net_base_ring_dequeue_slice(ring: &mut RingHead, storage: &[u8], into: &mut [u8]) -> usize {
    if !ring.is_sound(storage.len()) {
        return no_number();
    }
    ring.dequeue_slice(storage, into)
}
