//! `sheet_count`: how many inputs lead where.
//!
//! `count` compares both on generated calls: the answer, and beside it all 256
//! counters. The second implementation evaluates every input by itself. Where
//! there are at most 16 inputs, the archive's runs of all of them on copies are
//! to give the same counters.
//!
//! Its quotas ask for over 1,024 inputs, with two values or more, with undefined
//! ones beside others and with a feedback; for exactly 65,536, also all of one
//! value; for one input, leaves of one constructor, 64 leaves; for undefined
//! values, values above 127 and 255; for delays that move and for feedbacks; for
//! every code and each two; for products of 65,540, which is the lowest above
//! the limit that counts up to 255 can have, of slightly more, of 2^17, of
//! multiples of 2^32 and 2^64 and of 255^64; and for output leaves as in `press`.
//!
//! `products` makes input types of a given product, `given_inputs` and `folds`
//! random circuits on them, some on many leaves, and `circuits` those that are
//! timed.
//!
//! `bench-count` times the archive's count and a plain loop in turn: the second
//! simulator evaluates every input of a circuit that was read before. It fails
//! where either gives other counters than those worked out by hand, or where the
//! ratio of the medians is over the row's limit. It is no part of the gate.

pub mod archive;
mod bench;
mod case;
mod cases;
mod circuits;
mod compare;
mod comparison;
pub mod counting;
mod faults;
mod folds;
mod given_inputs;
mod jobs;
pub mod mistakes;
mod products;
mod tally;

#[cfg(test)]
mod tests;

use crate::frame::command::Command;
use crate::frame::entry::{Call, Entry};

pub const CALL: Call = Call {
    comparisons: &[Entry::of::<compare::Counts>()],
    commands: &[Command { name: "bench-count", parameters: "", run: bench::command }],
};
