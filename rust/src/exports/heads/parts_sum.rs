// Written by tools/erase.py from crates/net_ffi/src/heads/parts_sum.rt: a change here would be lost.
use crate::checksum::PartsSum;

#[inline(always)]
pub fn net_base_parts_sum_init(sum: &mut PartsSum) {
    *sum = PartsSum::new();
}

#[inline(always)]
pub fn net_base_parts_sum_add(sum: &mut PartsSum, part: &[u8]) {
    sum.add(part);
}

#[inline(always)]
pub fn net_base_parts_sum_checksum(sum: &PartsSum) -> u16 {
    sum.checksum()
}
