//! `sheet_preview`: compares the second implementation with the one in the
//! archive, and that one with the archive's run.

pub mod archive;
mod bench;
mod kind;
pub mod mistakes;
pub mod preview;

#[cfg(test)]
mod tests;

use crate::frame::command::Command;
use crate::frame::entry::{Call, Entry};
use crate::one_cycle::compare::OneCycle;

pub const CALL: Call = Call {
    comparisons: &[Entry::of::<OneCycle<kind::Previews>>()],
    commands: &[Command { name: "bench-preview", parameters: "", run: bench::command }],
};
