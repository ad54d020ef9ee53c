//! The preview: the outputs of one cycle without taking it; a code from 0 to
//! 10 and a place.

use crate::accepted::Circuit;
use crate::answers::{Answer, WRONG_OUTPUT_LENGTH};
use crate::evaluator::Right;
use crate::rule::IN_FORCE;
use crate::simulator::wrong_length;
use crate::stepper::Stepper;
use crate::stimulus;
use crate::values::Value;
use crate::watch::Watch;

/// What a preview is handed: two slices to read, and the length of one to fill.
#[derive(Clone, Copy)]
pub struct Call<'a> {
    pub sheet: &'a [u8],
    pub stimulus: &'a [u8],
    pub output_length: usize,
}

/// What a preview gives. A slice that is none is left unaltered.
pub struct Outcome {
    pub answer: Answer,
    pub outputs: Option<Vec<u8>>,
}

/// The preview of any call.
pub fn preview(call: &Call) -> Outcome {
    match judge(call) {
        Ok(circuit) => {
            let outputs = Some(shown(&circuit, call.stimulus));
            Outcome { answer: Answer::accepted(0), outputs }
        }
        Err(answer) => Outcome { answer, outputs: None },
    }
}

/// The circuit of a call that nothing refuses; else the first that applies of
/// 1 to 7, 8, 9 and 10.
fn judge(call: &Call) -> Result<Circuit, Answer> {
    let circuit = Circuit::read(call.sheet)?;
    let faults = [
        stimulus::not_one_cycle(&circuit, call.stimulus),
        stimulus::wrong_input(&circuit, call.stimulus),
        wrong_output_length(&circuit, call),
    ];
    faults.into_iter().flatten().next().map_or(Ok(circuit), Err)
}

/// Code 10: not as long as one cycle's outputs.
pub fn wrong_output_length(circuit: &Circuit, call: &Call) -> Option<Answer> {
    wrong_length(WRONG_OUTPUT_LENGTH, call.output_length, circuit.width(circuit.root()))
}

/// The outputs of the cycle, with each delay holding what the sheet says.
fn shown(circuit: &Circuit, input: &[u8]) -> Value {
    let mut watch = Watch::nothing();
    Stepper::<Right>::new(circuit, IN_FORCE, &mut watch).look(input)
}
