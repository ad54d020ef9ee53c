//! `sheet_press`: compares the second implementation with the one in the
//! archive, and the change that this one tells with the archive's run.

pub mod archive;
mod case;
mod cases;
mod compare;
mod comparison;
mod faults;
mod jobs;
pub mod mistakes;
pub mod press;
mod tally;

#[cfg(test)]
mod tests;

use crate::frame::entry::{Call, Entry};

pub const CALL: Call = Call { comparisons: &[Entry::of::<compare::Presses>()], commands: &[] };
