// Written by tools/erase.py from crates/net_tcp/src/advertised_window.rt: a change here would be lost.
//! The window that a receiver announces.

use crate::tcp::arriving::{classify, Arrival, Segment};

/// The greatest window scale (RFC 7323, section 2.3).
pub const MAX_SCALE: u8 = 14;

/// Returns the least scale by which this capacity, rounded down to a unit, can be announced, or 14 if
/// none can.
///
/// ```
/// use net_tcp::scale_for;
///
/// assert_eq!((scale_for(65_535), scale_for(65_536), scale_for(1 << 20)), (0, 1, 5));
/// ```
#[must_use]
pub fn scale_for(capacity: u64) -> u8 {
    for scale in 0..MAX_SCALE {
        if capacity >> scale <= 0xffff {
            return scale;
        }
    }
    MAX_SCALE
}

/// What a receiver has announced: how far its promise reaches.
///
/// ```
/// use net_tcp::AdvertisedWindow;
///
/// let mut advertised = AdvertisedWindow::new(0);
/// // Nothing came yet, and there is room for 1,000 bytes. The scale is 2^3.
/// assert_eq!(advertised.announce(3, 0, 1_000), 125);
/// // 100 bytes came and wait to be read: what was promised stays, and nothing more is.
/// assert_eq!((advertised.announce(3, 100, 1_000), advertised.edge()), (112, 1_000));
/// ```
#[repr(C)]
#[derive(Copy, Clone, Debug, PartialEq, Eq, Hash)]
pub struct AdvertisedWindow {
    /// The position after the last one that was ever promised.
    edge: u64,
}

impl AdvertisedWindow {
    /// Returns a window of which nothing was announced, before the byte at `first`.
    #[must_use]
    pub const fn new(first: u64) -> Self {
        AdvertisedWindow { edge: first }
    }

    /// Returns the position after the last one that was ever promised. All from the first missing one up
    /// to it is acceptable.
    #[must_use]
    pub const fn edge(&self) -> u64 {
        self.edge
    }

    /// Returns what to do with a segment, as `classify` says, in the window that was announced: from
    /// `next`, the first missing position, up to the edge, whatever is free now. No window is greater than the
    /// receiver's capacity.
    ///
    /// ```
    /// # use net_tcp::{AdvertisedWindow, Arrival, Segment};
    /// let advertised = AdvertisedWindow::new(110);
    /// let last = Segment::new(105, 5, 0x10);
    /// assert_eq!(advertised.classify(100, 10, last), Arrival::Take);
    /// ```
    #[must_use]
    pub fn classify(&self, next: u64, capacity: u64, segment: Segment) -> Arrival {
        classify(next, self.edge.saturating_sub(next), capacity, segment)
    }

    /// Returns the number to announce, in units of 2^`scale`, if `next` is the first missing position and `window_end`
    /// the end of the free room: the greatest that doesn't promise more than there is. In a segment with a SYN the
    /// scale is 0. A scale above 14 counts as 14 (RFC 7323, section 2.3).
    ///
    /// No number keeps a promise whose rest is not a multiple of the unit, unless there is room up to the
    /// next multiple: at one scale the number may then be less than what was promised, by less than a
    /// unit. What was promised is still acceptable, and `edge` stays.
    ///
    /// If the window ends before `next`, there is no room, as where the storage is full and the end, which has a
    /// number, is acknowledged.
    ///
    /// ```
    /// use net_tcp::AdvertisedWindow;
    ///
    /// let mut advertised = AdvertisedWindow::new(0);
    /// // In units of 8 no more is promised than there is, 15 here.
    /// assert_eq!((advertised.announce(3, 0, 15), advertised.edge()), (1, 8));
    /// ```
    ///
    /// # [Guarantees](crate#guarantees)
    ///
    /// - `old(self).edge() <= self.edge()`
    /// - `announced(next, shift_count(scale), result) <= max(next, window_end)`
    /// - for each `f`: if `f <= 65535` and `announced(next, shift_count(scale), f) <= max(next, window_end)`, then `f <= result`
    pub fn announce(&mut self, scale: u8, next: u64, window_end: u64) -> u16 {
        let shift = scale.min(MAX_SCALE);
        let field = field(shift, next, window_end);
        let edge = next + (u64::from(field) << shift);
        self.edge = self.edge.max(edge);
        field
    }

    /// Returns the number to announce in a segment that is sent anyway, as `announce` does, but moves
    /// the edge beyond `next` only if an update would be due: otherwise it announces what was promised
    /// before, rounded down. So the edge grows by what is worth an update, or only up to `next` (RFC
    /// 9293, section 3.8.6.2.2).
    ///
    /// ```
    /// use net_tcp::AdvertisedWindow;
    ///
    /// let mut advertised = AdvertisedWindow::new(0);
    /// assert_eq!(advertised.announce_in_steps(0, 0, 100, 100, 20), 100);
    /// // Ten bytes came and were read. A segment has 20, so ten more aren't worth an update.
    /// assert_eq!((advertised.announce_in_steps(0, 10, 110, 100, 20), advertised.edge()), (90, 100));
    /// assert_eq!((advertised.announce_in_steps(0, 20, 120, 100, 20), advertised.edge()), (100, 120));
    /// ```
    ///
    /// # [Guarantees](crate#guarantees)
    ///
    /// - `announced(next, shift_count(scale), result) <= max(next, window_end)`
    /// - if `old(self).edge() <= max(next, window_end)`, then `self.edge() <= max(next, window_end)`
    /// - `old(self).edge() + worth(capacity, mss) <= self.edge()` or `self.edge() == max(old(self).edge(), next)`
    pub fn announce_in_steps(
        &mut self,
        scale: u8,
        next: u64,
        window_end: u64,
        capacity: u64,
        mss: u16,
    ) -> u16 {
        if self.is_update_due(scale, next, window_end, capacity, mss) {
            self.announce(scale, next, window_end)
        } else {
            let promised = self.edge.min(window_end).max(next);
            self.announce(scale, next, promised)
        }
    }

    /// Returns whether an update is worth a segment of its own: whether the edge would move, from
    /// where it is, below `next` too, by half of the receiver's capacity, rounded up, or by one
    /// segment of `mss` bytes, and by 1 at least.
    ///
    /// None is due if the window ends before `next`. Pass such a `window_end`, as 0, once all up to the end is
    /// acknowledged: nothing follows that needs room, and a peer that has closed its connection would answer an update
    /// by a reset.
    ///
    /// ```
    /// use net_tcp::AdvertisedWindow;
    ///
    /// // All up to 100 was promised. A segment has 20 bytes.
    /// let advertised = AdvertisedWindow::new(100);
    /// assert!(advertised.is_update_due(0, 20, 120, 100, 20));
    /// assert!(!advertised.is_update_due(0, 19, 119, 100, 20));
    /// ```
    ///
    /// # [Guarantees](crate#guarantees)
    ///
    /// - `result` exactly if `next <= window_end` and `worth(capacity, mss) <= gain(self.edge(), shift_count(scale), next, window_end)`
    #[must_use]
    pub fn is_update_due(
        &self,
        scale: u8,
        next: u64,
        window_end: u64,
        capacity: u64,
        mss: u16,
    ) -> bool {
        let shift = scale.min(MAX_SCALE);
        let edge = next + (u64::from(field(shift, next, window_end)) << shift);
        let worth = (capacity - capacity / 2).min(u64::from(mss)).max(1);
        next <= window_end && edge.saturating_sub(self.edge) >= worth
    }
}

/// Returns the number to announce.
#[inline]
fn field(scale: u8, next: u64, window_end: u64) -> u16 {
    (window_end.saturating_sub(next) >> scale).min(0xffff) as u16
}
