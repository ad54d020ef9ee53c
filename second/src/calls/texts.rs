//! `sheet_translate`: compares the second translation with the one in the
//! archive, and runs of the sheets with the meaning of the texts.

pub mod archive;
mod bad_names;
mod bench;
mod case;
mod comparison;
mod features;
mod illegal;
mod jobs;
mod legal;
pub mod mistakes;
mod tally;

use crate::frame::command::Command;
use crate::frame::entry::{Call, Entry};

pub const CALL: Call = Call {
    comparisons: &[Entry::of::<case::Texts>()],
    commands: &[Command { name: "bench-translate", parameters: "", run: bench::command }],
};
