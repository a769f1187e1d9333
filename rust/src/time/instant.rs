// Written by tools/erase.py from crates/net_base/src/time/instant.rt: a change here would be lost.
//! Moments, in whole microseconds from an origin.

use super::InlineText;
use crate::time::{Duration, LONGEST_TEXT};
use core::fmt::{self, Write};
use core::ops::{Add, AddAssign, Sub, SubAssign};

/// A moment, in microseconds since an origin that you choose, such as the start of the system. A
/// negative one is before the origin. Calls that need to know the time take it as an argument.
///
/// It has -2^63 to 2^63 - 1 microseconds. Quotients are rounded towards zero.
///
/// ```
/// use net_base::time::{Duration, Instant};
///
/// let start = Instant::from_millis(1_500);
/// let end = start + Duration::from_secs(2);
/// assert_eq!((end - start, end.to_string()), (Duration::from_millis(2_000), "3.500s".into()));
/// ```
#[derive(Debug, Copy, Clone, PartialEq, Eq, PartialOrd, Ord, Hash)]
pub struct Instant {
    micros: i64,
}

impl Instant {
    /// The origin.
    ///
    /// ```
    /// # use net_base::time::Instant;
    /// assert_eq!(Instant::ZERO.total_micros(), 0);
    /// ```
    pub const ZERO: Instant = Instant { micros: 0 };

    /// Returns the same as `from_micros`, for code that was written for smoltcp.
    ///
    /// ```
    /// # use net_base::time::Instant;
    /// const LATER: Instant = Instant::from_micros_const(1_500);
    /// assert_eq!(LATER, Instant::from_micros(1_500));
    /// ```
    #[inline]
    #[must_use]
    pub const fn from_micros_const(micros: i64) -> Instant {
        Instant { micros }
    }

    /// Returns whether the microseconds fit an `i64`. If they don't, `from_millis` panics.
    ///
    /// ```
    /// # use net_base::time::Instant;
    /// assert!(Instant::fits_millis(-5) && !Instant::fits_millis(i64::MIN));
    /// ```
    #[inline]
    #[must_use]
    #[allow(clippy::redundant_pattern_matching)] // `is_some` is no `const fn` of Rattle
    pub const fn fits_millis(millis: i64) -> bool {
        matches!(millis.checked_mul(1_000), Some(_))
    }

    /// Returns the same as `from_millis`, for code that was written for smoltcp.
    ///
    /// ```
    /// # use net_base::time::Instant;
    /// const LATER: Instant = Instant::from_millis_const(5);
    /// assert_eq!(LATER, Instant::from_micros(5_000));
    /// ```
    ///
    /// # Panics
    ///
    /// Panics unless the microseconds fit an `i64`, as `fits_millis` tests.
    #[inline]
    #[track_caller]
    #[must_use]
    pub const fn from_millis_const(millis: i64) -> Instant {
        assert!(Self::fits_millis(millis), "attempt to multiply with overflow");
        Instant { micros: millis * 1_000 }
    }

    /// Returns whether the microseconds fit an `i64`. If they don't, `from_secs` panics.
    ///
    /// ```
    /// # use net_base::time::Instant;
    /// assert!(Instant::fits_secs(-5) && !Instant::fits_secs(i64::MIN));
    /// ```
    #[inline]
    #[must_use]
    #[allow(clippy::redundant_pattern_matching)] // `is_some` is no `const fn` of Rattle
    pub const fn fits_secs(secs: i64) -> bool {
        matches!(secs.checked_mul(1_000_000), Some(_))
    }

    /// Returns the same as `from_secs`, in a constant too. (Not in smoltcp.)
    ///
    /// ```
    /// # use net_base::time::Instant;
    /// const LATER: Instant = Instant::from_secs_const(5);
    /// assert_eq!(LATER, Instant::from_secs(5));
    /// ```
    ///
    /// # Panics
    ///
    /// Panics unless the microseconds fit an `i64`, as `fits_secs` tests.
    #[inline]
    #[track_caller]
    #[must_use]
    pub const fn from_secs_const(secs: i64) -> Instant {
        assert!(Self::fits_secs(secs), "attempt to multiply with overflow");
        Instant { micros: secs * 1_000_000 }
    }

    /// Returns the whole milliseconds beyond the whole seconds, with the sign of the moment.
    ///
    /// ```
    /// # use net_base::time::Instant;
    /// assert_eq!(Instant::from_millis(5_674).millis(), 674);
    /// ```
    #[inline]
    #[must_use]
    pub const fn millis(&self) -> i64 {
        self.micros() / 1_000
    }

    /// Returns the microseconds beyond the whole seconds, with the sign of the moment.
    ///
    /// ```
    /// # use net_base::time::Instant;
    /// assert_eq!(Instant::from_millis(5_674).micros(), 674_000);
    /// ```
    #[inline]
    #[must_use]
    pub const fn micros(&self) -> i64 {
        self.micros % 1_000_000
    }

    /// Returns the whole seconds since the origin.
    ///
    /// ```
    /// # use net_base::time::Instant;
    /// assert_eq!(Instant::from_millis(5_674).secs(), 5);
    /// ```
    #[inline]
    #[must_use]
    pub const fn secs(&self) -> i64 {
        self.micros / 1_000_000
    }

    /// Returns the whole milliseconds since the origin.
    ///
    /// ```
    /// # use net_base::time::Instant;
    /// assert_eq!(Instant::from_micros(5_674).total_millis(), 5);
    /// ```
    #[inline]
    #[must_use]
    pub const fn total_millis(&self) -> i64 {
        self.micros / 1_000
    }

    /// Returns the microseconds since the origin.
    ///
    /// ```
    /// # use net_base::time::Instant;
    /// assert_eq!(Instant::from_millis(5).total_micros(), 5_000);
    /// ```
    #[inline]
    #[must_use]
    pub const fn total_micros(&self) -> i64 {
        self.micros
    }

    /// Returns whether the sum is a moment. If it isn't, `+` and `+=` saturate.
    ///
    /// ```
    /// # use net_base::time::{Duration, Instant};
    /// let (last, short) = (Instant::from_micros(i64::MAX), Duration::from_micros(1));
    /// assert!(!last.can_add(short) && last + short == last);
    /// ```
    #[inline]
    #[must_use]
    pub fn can_add(&self, duration: Duration) -> bool {
        self.checked_add(duration).is_some()
    }

    /// Returns whether the difference is a moment. If it isn't, `-` and `-=` saturate.
    ///
    /// ```
    /// # use net_base::time::{Duration, Instant};
    /// let (first, short) = (Instant::from_micros(i64::MIN), Duration::from_micros(1));
    /// assert!(!first.can_sub(short) && first - short == first);
    /// ```
    #[inline]
    #[must_use]
    pub fn can_sub(&self, duration: Duration) -> bool {
        self.checked_sub(duration).is_some()
    }

    /// Returns `self + duration`, or `None` if that is after the last moment.
    ///
    /// ```
    /// # use net_base::time::{Duration, Instant};
    /// let last = Instant::from_micros(i64::MAX);
    /// assert_eq!(last.checked_add(Duration::from_micros(1)), None);
    /// ```
    #[inline]
    #[must_use]
    pub fn checked_add(&self, duration: Duration) -> Option<Instant> {
        self.micros.checked_add_unsigned(duration.total_micros()).map(|micros| Instant { micros })
    }

    /// Returns `self - duration`, or `None` if that is before the first moment.
    ///
    /// ```
    /// # use net_base::time::{Duration, Instant};
    /// let first = Instant::from_micros(i64::MIN);
    /// assert_eq!(first.checked_sub(Duration::from_micros(1)), None);
    /// ```
    #[inline]
    #[must_use]
    pub fn checked_sub(&self, duration: Duration) -> Option<Instant> {
        self.micros.checked_sub_unsigned(duration.total_micros()).map(|micros| Instant { micros })
    }

    /// Returns the moment `duration` later, or the last moment if that is after it.
    ///
    /// ```text
    /// self.timeout = self.timeout.saturating_mul(2);
    /// self.deadline = now.saturating_add(self.timeout);
    /// ```
    ///
    /// ```
    /// # use net_base::time::{Duration, Instant};
    /// let moment = Instant::ZERO.saturating_add(Duration::MAX);
    /// assert_eq!(moment, Instant::from_micros(i64::MAX));
    /// ```
    #[inline]
    #[must_use]
    pub fn saturating_add(&self, duration: Duration) -> Instant {
        let micros = self.micros.wrapping_add_unsigned(duration.total_micros());
        if micros < self.micros {
            return Instant::from_micros(i64::MAX);
        }
        Instant { micros }
    }

    /// Returns the moment `duration` earlier, or the first moment if that is before it.
    ///
    /// ```
    /// # use net_base::time::{Duration, Instant};
    /// let moment = Instant::ZERO.saturating_sub(Duration::MAX);
    /// assert_eq!(moment, Instant::from_micros(i64::MIN));
    /// ```
    #[inline]
    #[must_use]
    pub fn saturating_sub(&self, duration: Duration) -> Instant {
        let micros = self.micros.wrapping_sub_unsigned(duration.total_micros());
        if micros > self.micros {
            return Instant::from_micros(i64::MIN);
        }
        Instant { micros }
    }

    /// Returns how long after `earlier` this moment is, or no time if it is before it.
    ///
    /// ```
    /// # use net_base::time::{Duration, Instant};
    /// let (sent, answered) = (Instant::from_millis(3), Instant::from_millis(5));
    /// assert_eq!(answered.saturating_duration_since(sent), Duration::from_millis(2));
    /// assert_eq!(sent.saturating_duration_since(answered), Duration::ZERO);
    /// ```
    #[inline]
    #[must_use]
    pub fn saturating_duration_since(&self, earlier: Instant) -> Duration {
        if self.micros < earlier.micros {
            return Duration::ZERO;
        }
        Duration::from_micros(self.micros.abs_diff(earlier.micros))
    }

    /// Returns the text of the moment, whatever the options.
    fn text(&self) -> Result<InlineText<LONGEST_TEXT>, fmt::Error> {
        let secs = self.secs();
        let millis = self.millis();
        let mut text = InlineText::new();
        write!(text, "{secs}.{millis:0>3}s")?;
        Ok(text)
    }
}

/// `{secs}.{millis}s`, the milliseconds filled on the left by the digit 0 to three places. The
/// milliseconds of a negative moment keep their sign, which takes one of the places: `0.0-5s`.
/// Options such as a width change nothing.
impl fmt::Display for Instant {
    fn fmt(&self, f: &mut fmt::Formatter<'_>) -> fmt::Result {
        let text = self.text()?;
        f.write_str(text.as_str())
    }
}

/// Returns the moment `rhs` later, or the last moment if that is after it, as `can_add` tests.
/// smoltcp casts the length to a signed number: it panics, wraps, or goes back.
impl Add<Duration> for Instant {
    type Output = Instant;

    #[inline]
    fn add(self, rhs: Duration) -> Instant {
        self.saturating_add(rhs)
    }
}

/// Moves to the moment `rhs` later, or to the last moment if that is after it.
impl AddAssign<Duration> for Instant {
    #[inline]
    fn add_assign(&mut self, rhs: Duration) {
        *self = *self + rhs;
    }
}

/// Returns the moment `rhs` earlier, or the first moment if that is before it, as `can_sub` tests.
impl Sub<Duration> for Instant {
    type Output = Instant;

    #[inline]
    fn sub(self, rhs: Duration) -> Instant {
        self.saturating_sub(rhs)
    }
}

/// Moves to the moment `rhs` earlier, or to the first moment if that is before it.
impl SubAssign<Duration> for Instant {
    #[inline]
    fn sub_assign(&mut self, rhs: Duration) {
        *self = *self - rhs;
    }
}

/// Returns how far apart the moments are, whichever is the later one. Any two moments have a
/// distance.
impl Sub<Instant> for Instant {
    type Output = Duration;

    #[inline]
    fn sub(self, rhs: Instant) -> Duration {
        Duration::from_micros(self.micros.abs_diff(rhs.micros))
    }
}
