// Written by tools/erase.py from crates/net_ends/src/tcp_buffer.rt: a change here would be lost.
use crate::ends::tcp_buffer::*;
use crate::storage::Run;

impl BufferHead {
    /// Returns whether the scoreboard is sound with its runs. It looks at each used run.
    pub(crate) fn is_sound(&self, runs: &[Run]) -> bool {
        self.scoreboard.is_sound(runs)
    }
}
