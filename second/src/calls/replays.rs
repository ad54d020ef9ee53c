//! `sheet_replay`: replaying a record, and the program `sheetreplay`.
//!
//! `replay` compares both on generated calls: the answer, the numbers beside it
//! and the next slice, byte by byte. Where nothing refuses, the archive's run of
//! the same call is to show what is found: its outputs are the record, with as
//! many cycles and the same next sheet, or they are up to the leaf that is given,
//! and not there.
//!
//! Its quotas ask for records that agree, with delays that change and with no
//! cycles; that differ in the first cycle and first in a later one, at leaf 0 and
//! first at a later one, in several cycles, in several leaves of one, and in a
//! lower leaf of a later cycle; by a byte above its count, by 0 against a value,
//! by a value against 0; for records of 4,194,240 bytes and stimuli over 60,000;
//! for every code, and each two, of which 17 goes before 11; and for 11 where the
//! record differs.
//!
//! `sheetreplay` runs the program of that name in a folder, on records that agree
//! and that differ, of no cycles, of one and of many; on every code; without each
//! of the three files and without several, of which the first is named, also
//! where the files that are there are refused. Every file is to stay as it is,
//! and no other to be made. `line` is what it prints.
//!
//! `bench-replay` times the archive's replay of an agreeing record beside its
//! run, on the rows of `bench-run`, and prints the ratios.

pub mod archive;
mod bench;
mod case;
mod cases;
mod compare;
mod comparison;
mod faults;
mod jobs;
pub mod line;
pub mod mistakes;
mod program;
pub mod replay;
mod tally;

#[cfg(test)]
mod tests;

use crate::frame::command::Command;
use crate::frame::entry::{Call, Entry};
use crate::frame::program::Programs;

pub const CALL: Call = Call {
    comparisons: &[Entry::of::<compare::Replays>(), Entry::of::<Programs<program::Sheetreplay>>()],
    commands: &[Command { name: "bench-replay", parameters: "", run: bench::command }],
};
