// Written by tools/erase.py from crates/net_ffi/src/answer_limit.rt: a change here would be lost.
use crate::exports::Segment;
use crate::time::Instant;

#[repr(C)]
#[derive(Copy, Clone, Debug)]
pub struct AnswerLimit {
    pub until: i64,
}

#[inline(always)]
pub fn net_base_answer_limit_init(limit: &mut AnswerLimit) {
    *limit = AnswerLimit { until: i64::MIN };
}

#[inline(always)]
pub fn net_base_answer_limit_allows(limit: &mut AnswerLimit, segment: &Segment, now: i64) -> bool {
    let mut it = crate::exports::AnswerLimit { until: Instant::from_micros(limit.until) };
    let is_allowed = it.allows(*segment, Instant::from_micros(now));
    limit.until = it.until.total_micros();
    is_allowed
}
