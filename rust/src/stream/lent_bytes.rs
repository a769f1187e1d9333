// Written by tools/erase.py from crates/net_receiver/src/lent_bytes.rt: a change here would be lost.
//! The bytes of a segment, as a sender lends them.

/// Bytes of a segment that a sender lends, and whether the stream ends after them.
///
/// ```
/// use net_base::finite::{FiniteSender, LentBytes};
///
/// let mut storage = [0u8; 4];
/// let mut sender = FiniteSender::new_at(&mut storage[..], 0);
/// assert_eq!(sender.write(b"abc"), 3);
/// sender.close();
/// let LentBytes { bytes, fin } = sender.peek_at(0, 9);
/// assert_eq!((bytes, fin), (&b"abc"[..], true));
/// ```
#[derive(Copy, Clone, Debug, PartialEq, Eq)]
pub struct LentBytes<'a> {
    /// The bytes, up to the storage's end.
    pub bytes: &'a [u8],
    /// Whether the stream ends after them, as TCP's FIN or QUIC's FIN bit says.
    pub fin: bool,
}
