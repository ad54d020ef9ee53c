//! The program `sheetreport`: how many times each output leaf of a run changes,
//! and the total. No function of the archive does this.
//!
//! - `changes` has the changes of the outputs: those of one leaf, and the pairs
//!   of cycle and leaf of all, which are counted for the total; `report` what
//!   the program prints. They have the names of the crates that do the same.
//! - `sheetreport PROGRAM FOLDER [--seed N] [--sheets N] [--threads N]
//!   [--mistake NAME]` runs the program in a folder and compares all that it
//!   prints. Every file is to stay as it is, an old `next.bin` too, and no other
//!   to be made. The total is to be the sum of the lines that the program prints.
//! - Its quotas ask for runs of no cycles, of one, of two and of 1,000 or more;
//!   for outputs of one leaf and of 64, of more leaves than the input and of
//!   fewer; for changes from undefined and to it, several in one cycle, and back
//!   to a leaf's first value; for leaves that never change beside others; for
//!   numbers of one to five digits, and totals above 65,535; for each code and
//!   each file that is not there, also where both are not, and where the one
//!   that is there is refused.
//! - `shifts` makes circuits whose output leaves are leaves of the input, of now
//!   or of the cycle before, constants, and IFs that give undefined.

mod cases;
pub mod changes;
pub mod mistakes;
mod program;
pub mod report;
mod shifts;

#[cfg(test)]
mod tests;

use crate::frame::entry::{Call, Entry};
use crate::frame::program::Programs;

pub const CALL: Call =
    Call { comparisons: &[Entry::of::<Programs<program::Sheetreport>>()], commands: &[] };
