//! Code 21: the number of an output leaf that there is not.

use crate::accepted::Circuit;
use crate::answers::{Answer, NO_OUTPUT_LEAF};

/// Code 21: the number is not below that of the output leaves.
pub fn no_output_leaf(circuit: &Circuit, leaf: usize) -> Option<Answer> {
    let leaves = circuit.width(circuit.root());
    (leaf >= leaves).then_some(Answer { code: NO_OUTPUT_LEAF, place: leaves as u32 })
}
