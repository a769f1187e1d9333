//! Which bytes of its stream a sender knows to have arrived, as from TCP's SACK blocks: [`Scoreboard`].
//!
//! Not proved, but tested: constructors without `N`, `Default`, `PartialEq`, and `Debug`.
use core::fmt;

use crate::storage::Listed;

pub use crate::stream::{ReportError, Scoreboard};

impl Scoreboard {
    /// Returns a scoreboard of a stream that begins at position 0, with room for 4 ranges. For another number write
    /// `Scoreboard::<8>::empty()`.
    ///
    /// ```
    /// # use net_base::scoreboard::Scoreboard;
    /// assert!(!Scoreboard::new().contains(0));
    /// ```
    #[must_use]
    pub const fn new() -> Scoreboard {
        Scoreboard::empty()
    }

    /// Returns a scoreboard of a stream that begins at position `first`, with room for 4 ranges. For another number
    /// write `Scoreboard::<8>::empty_at(first)`.
    ///
    /// ```
    /// # use net_base::scoreboard::Scoreboard;
    /// let scoreboard = Scoreboard::new_at(100);
    /// assert!(scoreboard.contains(99) && !scoreboard.contains(100));
    /// ```
    #[must_use]
    pub const fn new_at(first: u64) -> Scoreboard {
        Scoreboard::empty_at(first)
    }
}

impl<const N: usize> Default for Scoreboard<N> {
    fn default() -> Self {
        Self::empty()
    }
}

/// Scoreboards are equal if the same positions were reported to them.
impl<const N: usize> PartialEq for Scoreboard<N> {
    fn eq(&self, other: &Self) -> bool {
        self.first_unreported() == other.first_unreported() && self.reported().eq(other.reported())
    }
}

impl<const N: usize> Eq for Scoreboard<N> {}

/// Prints the first position that wasn't reported, and the ranges above it.
impl<const N: usize> fmt::Debug for Scoreboard<N> {
    fn fmt(&self, f: &mut fmt::Formatter) -> fmt::Result {
        f.debug_struct("Scoreboard")
            .field("first_unreported", &self.first_unreported())
            .field("reported", &Listed(|| self.reported()))
            .finish()
    }
}
