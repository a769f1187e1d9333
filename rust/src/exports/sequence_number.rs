// Written by tools/erase.py from crates/net_ffi/src/sequence_number.rt: a change here would be lost.
use crate::exports::SequenceNumber;

#[inline(always)]
pub fn net_base_sequence_number_position(
    number: u32,
    initial: u32,
    next: u64,
    position: &mut u64,
) -> bool {
    let number = SequenceNumber::new(number);
    match number.position(SequenceNumber::new(initial), next) {
        Some(pos) => {
            *position = pos;
            true
        }
        None => false,
    }
}
