//! `sheet_run`: compares the second simulator with the one in the archive and
//! with the program `sheetrun`, and times both.

pub mod archive;
pub mod bench;
pub mod case;
pub mod cases;
mod comparison;
pub mod faults;
mod good_calls;
mod jobs;
mod late;
pub mod mistakes;
mod ordered;
pub mod program;
mod relabelled;
mod rules;
pub mod tally;
mod versions;
mod wrong_steps;

use crate::frame::command::Command;
use crate::frame::entry::{Call, Entry};
use crate::frame::program::Programs;

pub const CALL: Call = Call {
    comparisons: &[
        Entry::of::<case::Runs>(),
        Entry::of::<ordered::Ordered<late::Late>>(),
        Entry::of::<ordered::Ordered<rules::Rules>>(),
        Entry::of::<ordered::Ordered<relabelled::Relabelled>>(),
        Entry::of::<Programs<program::Sheetrun>>(),
    ],
    commands: &[Command {
        name: "bench-run",
        parameters: "[--before FOLDER] [PROGRAM FOLDER]",
        run: bench::command,
    }],
};
