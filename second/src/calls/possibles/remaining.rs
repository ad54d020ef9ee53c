//! How many constructors remain possible at each output leaf in one cycle; a
//! code of 0 to 10 or 22, and a place.

use super::estimator::{self, Estimator};
use super::sets::Set;
use crate::accepted::Circuit;
use crate::answers::{Answer, WRONG_OUTPUT_LENGTH};
use crate::records::{Record, A, FEEDBACK, FLAT, KIND};
use crate::simulator::wrong_length;
use crate::stimulus;

/// The sheet has a feedback, or a flat type of too many constructors.
pub const NOT_FOR_SETS: u8 = 22;

/// The most constructors of a flat type.
pub const MOST_CONSTRUCTORS: u16 = 64;

/// What the call is handed: two slices to read, and the length of one to fill.
#[derive(Clone, Copy)]
pub struct Call<'a> {
    pub sheet: &'a [u8],
    pub stimulus: &'a [u8],
    pub output_length: usize,
}

/// What the call gives. A slice that is none is left unaltered.
#[derive(Clone, PartialEq, Eq, Debug)]
pub struct Outcome {
    pub answer: Answer,
    pub counts: Option<Vec<u8>>,
}

impl Outcome {
    pub fn refused(answer: Answer) -> Outcome {
        Outcome { answer, counts: None }
    }
}

/// A check of a call on an accepted sheet: a refusal if it applies.
pub type Check = fn(&Circuit, &Call) -> Option<Answer>;

/// The rules that a comparison can replace to make a mistake.
#[derive(Clone, Copy)]
pub struct Rules {
    /// The checks after 7, in their order.
    pub checks: [Check; 4],
    pub estimator: estimator::Rules,
    /// The byte that is written for a leaf.
    pub count: fn(Set) -> u8,
}

pub const RULES: Rules = Rules {
    checks: [not_for_sets, not_one_cycle, wrong_input, wrong_output_length],
    estimator: estimator::RULES,
    count: Set::size,
};

/// The answer to any call.
pub fn remaining(call: &Call) -> Outcome {
    remaining_by(&RULES, call)
}

/// The answer to any call by some rules.
pub fn remaining_by(rules: &Rules, call: &Call) -> Outcome {
    match judge(rules, call) {
        Ok(circuit) => {
            let sets = Estimator::new(&circuit, &rules.estimator).outputs(call.stimulus);
            let counts = Some(sets.into_iter().map(rules.count).collect());
            Outcome { answer: Answer::accepted(0), counts }
        }
        Err(answer) => Outcome::refused(answer),
    }
}

/// The circuit of a call that nothing refuses; else the first that applies of
/// 1 to 7, 22, 8, 9 and 10.
fn judge(rules: &Rules, call: &Call) -> Result<Circuit, Answer> {
    let circuit = Circuit::read(call.sheet)?;
    let refused = rules.checks.iter().find_map(|check| check(&circuit, call));
    refused.map_or(Ok(circuit), Err)
}

/// Whether a record is a feedback or a flat type of too many constructors.
pub fn unfit(record: &Record) -> bool {
    match record[KIND] {
        FEEDBACK => true,
        FLAT => record[A] > MOST_CONSTRUCTORS,
        _ => false,
    }
}

/// Code 22: the lowest record that is one of the two, used or not.
pub fn not_for_sets(circuit: &Circuit, _: &Call) -> Option<Answer> {
    let place = circuit.records.iter().position(unfit)?;
    Some(Answer { code: NOT_FOR_SETS, place: place as u32 })
}

/// Code 8: not exactly one cycle.
pub fn not_one_cycle(circuit: &Circuit, call: &Call) -> Option<Answer> {
    stimulus::not_one_cycle(circuit, call.stimulus)
}

/// Code 9: the first byte above its leaf's constructor count.
pub fn wrong_input(circuit: &Circuit, call: &Call) -> Option<Answer> {
    stimulus::wrong_input(circuit, call.stimulus)
}

/// Code 10: not as long as one cycle's outputs.
pub fn wrong_output_length(circuit: &Circuit, call: &Call) -> Option<Answer> {
    wrong_length(WRONG_OUTPUT_LENGTH, call.output_length, circuit.width(circuit.root()))
}
