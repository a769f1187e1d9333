//! The machines of a connection, step by step: timers, recovery, and both ends. Each test is of one rule, which its
//! comment says, most often of an RFC. A step makes a call and names what changed; all else is compared too. Replies were
//! given by models in another language, which are gone.
#![cfg(feature = "alloc")]
// One block is a slice of one range, and one that can't be ends before it begins.
#![allow(clippy::single_range_in_vec_init, clippy::reversed_empty_ranges)]

/// Makes a call, compares what it gives and what is sent then, and all that is seen: what isn't named is as it was.
macro_rules! step {
    ($it:ident.$call:ident($($with:expr),*) $(=> $given:expr $(, sends($window:expr, $now:expr) $sent:expr)?)?
     $(; $($field:ident = $seen:expr),+)?) => {{
        let _given = $it.$call($($with),*);
        $(assert_eq!(_given, $given);
        $(assert_eq!($it.sends($window, $now), $sent);)?)?
        $($($it.seen.$field = $seen;)+)?
        assert_eq!($it.see(), $it.seen);
    }};
}

mod receiving;
mod recovery;
mod sending;
mod timer;
