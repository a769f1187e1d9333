// Written by tools/erase.py from crates/net_tcp/src/sack.rt: a change here would be lost.
//! Whether acknowledgements are selective.

/// Whether both ends have agreed to selective acknowledgements: the option SACK-permitted of RFC 2018, in both SYNs.
///
/// ```
/// use net_base::time::Duration;
/// use net_tcp::{RetransmissionTimer, Sack};
///
/// let timer = RetransmissionTimer::new(Duration::from_secs(1), Sack::Permitted);
/// assert_eq!(timer.expires_at(), None);
/// ```
#[derive(Copy, Clone, Debug, PartialEq, Eq, Hash)]
pub enum Sack {
    /// They have: an acknowledgement says in blocks what has arrived.
    Permitted,
    /// They haven't: an acknowledgement is a number alone.
    Absent,
}

impl Sack {
    /// Returns whether both ends have agreed.
    pub(crate) const fn is_permitted(self) -> bool {
        matches!(self, Sack::Permitted)
    }
}
