//! How long an evaluation can take, so that comparisons which evaluate a sheet
//! many times can leave out what would take too long.

use crate::accepted::Circuit;
use crate::records::{expression_parts, A, B, FEEDBACK, KIND};

/// How many records an evaluation of the root evaluates at most.
pub fn most_evaluations(circuit: &Circuit) -> usize {
    of_expression(circuit, circuit.root())
}

/// The same of an expression: the defining part of a feedback counts once for
/// each leaf, and once more.
fn of_expression(circuit: &Circuit, number: usize) -> usize {
    let record = circuit.records[number];
    let times = |word: usize| match record[KIND] {
        FEEDBACK if word == B => circuit.width(usize::from(record[A])) + 1,
        _ => 1,
    };
    let part = |(word, part)| of_expression(circuit, part).saturating_mul(times(word));
    expression_parts(&record).map(part).fold(1, usize::saturating_add)
}
