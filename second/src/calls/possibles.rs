//! `sheet_possible`: what can still happen.
//!
//! `possible` compares both on generated calls: the answer and the slice. Of
//! calls with at most 4,096 ways to fill the undefined leaves of input,
//! constants and delays, all are tried. The outputs of the second simulator, by
//! both rules for an undecided IF, and those of the archive's preview are to lie
//! in the second implementation's sets, which have as many constructors as the
//! archive counts. Each leaf that the cycle defines is to be alone in its set;
//! with one leaf more filled no set is to grow, and with all filled each is to
//! have one constructor.
//!
//! Its quotas ask for undecided IFs; for chains on flat types that say yes by
//! several alternatives together, also inside pair patterns; for chains of pair
//! patterns that are undecided, and where the product sets of source document
//! 000 or joined parts would say something else; for whole types among the
//! alternatives of a pair and for shared patterns; for undefined leaves of
//! constants and delays; for output leaves with all of 64 constructors, with
//! some of a type, and alone though the cycle leaves them undefined; for every
//! code and each two; and for each way to be refused by 22.
//!
//! Cases and ways to break a call are those of `one_cycle`; jobs and quotas are
//! its own, since the call refuses what most random sheets have.
//!
//! `sets`, `estimator` and `remaining` are the second implementation; `products`
//! and `wrong_rules` hold other readings. `fitting` makes circuits that the call
//! takes of any, `circuits` random ones, `rows` those that are timed; `fillings`
//! and `promises` try what is promised, and `chains` finds what is counted of
//! patterns.
//!
//! `bench-possible` times the archive's preview and its `sheet_possible` in turn
//! on each row, on an undefined and on a defined input, and prints the ratio of
//! their medians of 21. It fails where the counts are not the second's, or where
//! a row is over its limit: three times the preview, or 20 ms where all IFs share
//! one pattern. It is no part of the gate.

pub mod archive;
mod bench;
mod case;
mod cases;
mod chains;
mod circuits;
mod compare;
mod comparison;
pub mod estimator;
mod faults;
mod fillings;
mod fitting;
mod jobs;
pub mod mistakes;
mod products;
mod promises;
pub mod remaining;
mod rows;
pub mod sets;
mod tally;
mod wrong_rules;

#[cfg(test)]
mod tests;

use crate::frame::command::Command;
use crate::frame::entry::{Call, Entry};

pub const CALL: Call = Call {
    comparisons: &[Entry::of::<compare::Possibles>()],
    commands: &[Command { name: "bench-possible", parameters: "", run: bench::command }],
};
