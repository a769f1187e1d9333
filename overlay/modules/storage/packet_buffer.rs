//! What Rattle has no words for in a packet queue: storage that is converted, and its text.
use core::fmt;

use managed::ManagedSlice;

use super::PacketMetadata;
use super::ring_buffer::Shown;
use crate::proved::storage::{PacketBuffer, PacketsOver};
use crate::proved::storage::Storage;

impl<'a, H> PacketBuffer<'a, H> {
    /// Returns a queue with no packets, which has as many slots as `slots` has elements, and room for as many bytes as
    /// `bytes` has.
    pub fn new<M, B>(slots: M, bytes: B) -> Self
    where
        M: Into<ManagedSlice<'a, PacketMetadata<H>>>,
        B: Into<ManagedSlice<'a, u8>>,
    {
        PacketsOver::over(slots.into(), bytes.into())
    }
}

impl<H, M, B> fmt::Debug for PacketsOver<H, M, B>
where
    M: Storage<PacketMetadata<H>> + fmt::Debug,
    B: Storage<u8> + fmt::Debug,
{
    fn fmt(&self, f: &mut fmt::Formatter) -> fmt::Result {
        f.debug_struct("PacketBuffer")
            .field("metadata_ring", &Shown(&self.slots, self.head.slots))
            .field("payload_ring", &Shown(&self.bytes, self.head.bytes))
            .finish()
    }
}
