//! `sheet_check`: compares the second check with the one in the archive, and
//! times both.

pub mod archive;
mod bench;
mod case;
mod comparison;
mod fixed_sheets;
mod jobs;
pub mod mistakes;
mod tally;

use crate::frame::command::Command;
use crate::frame::entry::{Call, Entry};

pub const CALL: Call = Call {
    comparisons: &[Entry::of::<case::Checks>()],
    commands: &[Command { name: "bench", parameters: "", run: bench::command }],
};
