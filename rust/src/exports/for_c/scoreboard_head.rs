// Written by tools/erase.py from crates/net_receiver/src/scoreboard_head.rt: a change here would be lost.
use crate::storage::Run;
use crate::stream::scoreboard_head::*;

impl ScoreboardHead {
    /// Returns whether the scoreboard is sound with these runs, for any numbers in both: `reported`
    /// and they are those of an assembler, `base` isn't reported, and each end fits 64 bits. It
    /// looks at each used run.
    pub(crate) fn is_sound(&self, runs: &[Run]) -> bool {
        if !self.reported.is_sound(runs) {
            return false;
        }
        if self.reported.peek_front(runs) != 0 {
            return false;
        }
        self.reported.end(runs) as u64 <= u64::MAX - self.base
    }
}
