//! net-base's `StreamRanges` for C, as `rob.c` and `gaptr.c` beside this call them.

use net_base::{finite::StreamRangesOver, storage::Run};

pub struct Ranges(StreamRangesOver<Vec<Run>>);

/// As ngtcp2's: the first position, and the one after the last.
#[repr(C)]
pub struct Range {
    begin: u64,
    end: u64,
}

#[no_mangle]
pub extern "C" fn ranges_new() -> Box<Ranges> {
    Box::new(Ranges(StreamRangesOver::over_at(vec![], 0, usize::MAX)))
}

#[no_mangle]
pub extern "C" fn ranges_free(_ranges: Option<Box<Ranges>>) {}

/// Notes that the first part of a range that is new has come, and returns it: an empty one if nothing is new.
#[no_mangle]
pub extern "C" fn ranges_keep(ranges: &mut Ranges, begin: u64, end: u64) -> Range {
    let part = ranges.0.keep(begin..end, false).unwrap_or_else(|_| {
        let more = 2 * ranges.0.most_runs() + 1;
        ranges.0.grow_runs(vec![Run::EMPTY; more]);
        ranges.0.keep(begin..end, false).expect("room for a range")
    });
    part.map_or(Range { begin, end: begin }, |part| Range { begin: part.start, end: part.end })
}

/// Returns the first gap that ends above a position. The last one ends at the greatest number.
#[no_mangle]
pub extern "C" fn ranges_gap(ranges: &Ranges, pos: u64) -> Range {
    let mut begin = ranges.0.next();
    for (start, end) in ranges.0.held() {
        if pos < start {
            return Range { begin, end: start };
        }
        begin = end;
    }
    Range { begin, end: u64::MAX }
}
