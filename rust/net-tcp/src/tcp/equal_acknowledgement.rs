// Written by tools/erase.py from crates/net_tcp/src/equal_acknowledgement.rt: a change here would be lost.
//! Equal acknowledgements.

use net_base::finite::SentNumbers;

/// Returns whether an acknowledgement of all below `next` is an equal one (RFC 5681, section 2): it says again what was
/// acknowledged, while something isn't; and its segment `is_bare`. Such a segment has no byte, no SYN, no FIN and no
/// block, and announces the window that was announced last. Something has arrived then, and the peer doesn't say where.
#[must_use]
pub(crate) fn is_equal_acknowledgement(numbers: SentNumbers, next: u64, is_bare: bool) -> bool {
    next == numbers.first_unacknowledged && numbers.first_unacknowledged < numbers.sent && is_bare
}
