//! The heads that `net-tcp` takes of private modules. They are no part of the interface: they may change in any version, so
//! that package wants the same version of this one.
pub use crate::storage::assembler::AssemblerHead;
pub use crate::stream::held_runs::HeldRun;
pub use crate::stream::scoreboard_head::ScoreboardHead;
