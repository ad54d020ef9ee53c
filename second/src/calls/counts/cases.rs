//! Counts that keep every rule.

use super::case::Case;
use super::counting::{inputs, MOST_INPUTS};
use crate::accepted::Circuit;
use crate::one_leaf::effort::most_evaluations;
use crate::random::Random;

/// What a call needs to know of an accepted sheet.
pub struct Plain {
    /// How many fully defined inputs there are; at most `usize::MAX`.
    pub inputs: usize,
    /// How many records are evaluated at most for all of them.
    pub effort: usize,
    /// How many leaves the output has.
    pub leaves: usize,
}

impl Plain {
    /// Of a sheet, none if it is refused.
    pub fn of(sheet: &[u8]) -> Option<Plain> {
        let circuit = Circuit::read(sheet).ok()?;
        let inputs = inputs(&circuit);
        let effort = inputs.saturating_mul(most_evaluations(&circuit));
        Some(Plain { inputs, effort, leaves: circuit.width(circuit.root()) })
    }

    /// Of a sheet whose inputs are counted by at most so many evaluations of
    /// records.
    pub fn within(sheet: &[u8], effort: usize) -> Option<Plain> {
        Plain::of(sheet).filter(|plain| plain.inputs <= MOST_INPUTS && plain.effort <= effort)
    }

    /// A call on any output leaf.
    pub fn any(&self, source: &str, sheet: Vec<u8>, random: &mut Random) -> Case {
        Case { source: source.to_string(), sheet, leaf: random.below(self.leaves) }
    }
}
