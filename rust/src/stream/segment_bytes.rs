// Written by tools/erase.py from crates/net_receiver/src/segment_bytes.rt: a change here would be lost.
//! The bytes of a range of a stream, wherever the storage ends.

/// The bytes of a segment, in two parts, since the storage may end between them.
///
/// ```
/// use net_base::finite::FiniteSender;
///
/// let mut storage = [0u8; 64];
/// let mut sender = FiniteSender::new_at(&mut storage[..], 0);
/// assert_eq!(sender.write(b"abcdef"), 6);
/// sender.close();
/// let lent = sender.segment_bytes(2..7);
/// assert_eq!(([lent.front, lent.back].concat(), lent.fin), (b"cdef".to_vec(), true));
/// ```
#[derive(Copy, Clone, Debug, PartialEq, Eq)]
pub struct SegmentBytes<'a> {
    /// The first bytes.
    pub front: &'a [u8],
    /// The bytes after those.
    pub back: &'a [u8],
    /// Whether the stream ends after them, as TCP's FIN or QUIC's FIN bit says.
    pub fin: bool,
}
