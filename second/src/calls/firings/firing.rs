//! Which alternatives fire in one cycle: a code from 0 to 9 or 16, a place, and
//! one word for each record.

use crate::accepted::Circuit;
use crate::answers::{Answer, WRONG_WORDS};
use crate::evaluator::{Right, Tested};
use crate::matching::{said_by_each, Match};
use crate::records::{D, IF, KIND};
use crate::rule::IN_FORCE;
use crate::stepper::Stepper;
use crate::stimulus;
use crate::watch::Watch;

/// What the call is handed: two slices to read, and the length in words of one
/// to fill.
#[derive(Clone, Copy)]
pub struct Call<'a> {
    pub sheet: &'a [u8],
    pub stimulus: &'a [u8],
    pub fired_length: usize,
}

/// What the call gives. A slice that is none is left unaltered.
pub struct Outcome {
    pub answer: Answer,
    pub fired: Option<Vec<u16>>,
}

/// The answer to any call.
pub fn firing(call: &Call) -> Outcome {
    match judge(call) {
        Ok(circuit) => {
            let fired = Some(fired(&circuit, call.stimulus));
            Outcome { answer: Answer::accepted(0), fired }
        }
        Err(answer) => Outcome { answer, fired: None },
    }
}

/// The circuit of a call that nothing refuses; else the first that applies of
/// 1 to 7, 8, 9 and 16.
fn judge(call: &Call) -> Result<Circuit, Answer> {
    let circuit = Circuit::read(call.sheet)?;
    let faults = [
        stimulus::not_one_cycle(&circuit, call.stimulus),
        stimulus::wrong_input(&circuit, call.stimulus),
        wrong_words(&circuit, call),
    ];
    faults.into_iter().flatten().next().map_or(Ok(circuit), Err)
}

/// Code 16: not one word for each record; the place is the words needed.
pub fn wrong_words(circuit: &Circuit, call: &Call) -> Option<Answer> {
    let needed = circuit.records.len();
    (call.fired_length != needed).then_some(Answer { code: WRONG_WORDS, place: needed as u32 })
}

/// What each IF tests in a cycle, by record.
pub fn tested(circuit: &Circuit, input: &[u8]) -> Vec<Tested> {
    let mut watch = Watch::nothing();
    let mut stepper = Stepper::<Right>::new(circuit, IN_FORCE, &mut watch);
    stepper.look(input);
    stepper.tested().to_vec()
}

/// The first alternative of an IF's own chain that says yes on a value; 0
/// where none does.
pub fn first_yes(circuit: &Circuit, choice: usize, value: &[u8]) -> u16 {
    let each = said_by_each(circuit, circuit.records[choice][D], value);
    each.into_iter().find(|(_, said)| *said == Match::Yes).map_or(0, |(pattern, _)| pattern)
}

/// One word for each record: at an IF the alternative that fires on what it
/// tests with every feedback around it settled, 0 elsewhere.
fn fired(circuit: &Circuit, input: &[u8]) -> Vec<u16> {
    let tested = tested(circuit, input);
    let word = |number: usize| match circuit.records[number][KIND] {
        IF => first_yes(circuit, number, &tested[number].last),
        _ => 0,
    };
    (0..circuit.records.len()).map(word).collect()
}
