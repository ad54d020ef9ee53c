//! `sheet_carry`: compares the second implementation of carrying with the one
//! in the archive, and times both.

pub mod archive;
mod bench;
pub mod carry;
mod case;
mod cases;
mod comparison;
mod jobs;
pub mod mistakes;
mod tally;

#[cfg(test)]
mod tests;

use crate::frame::command::Command;
use crate::frame::entry::{Call, Entry};

pub const CALL: Call = Call {
    comparisons: &[Entry::of::<case::Carries>()],
    commands: &[Command { name: "bench-carry", parameters: "", run: bench::command }],
};
