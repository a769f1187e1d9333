//! As much of the crate `rand` as smoltcp's tests of an assembler ask for: the same numbers each time.
use std::cell::Cell;
use std::ops::{Bound, RangeBounds};

thread_local!(static STATE: Cell<u64> = const { Cell::new(1) });

pub struct ThreadRng;

pub fn thread_rng() -> ThreadRng {
    ThreadRng
}

pub trait Rng {
    fn gen_range(&mut self, range: impl RangeBounds<usize>) -> usize {
        STATE.set(STATE.get().wrapping_mul(6364136223846793005).wrapping_add(1442695040888963407));
        let (Bound::Included(&first), end) = (range.start_bound(), range.end_bound()) else { panic!("no first number") };
        let (last, excluded) = match end {
            Bound::Included(&last) => (last, 0),
            Bound::Excluded(&end) => (end, 1),
            Bound::Unbounded => panic!("no last number"),
        };
        first + (STATE.get() >> 33) as usize % (last + 1 - excluded - first)
    }
}

impl Rng for ThreadRng {}
