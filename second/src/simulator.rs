//! The run of a sheet over a stimulus: a code from 0 to 11, a place, the
//! outputs and the next sheet.

use crate::accepted::Circuit;
use crate::answers::{Answer, WRONG_NEXT_LENGTH, WRONG_OUTPUT_LENGTH};
use crate::evaluator::{Right, Steps};
use crate::rule::{Rule, IN_FORCE};
use crate::stepper::Stepper;
use crate::stimulus;
use crate::watch::Watch;

/// What a run is handed: two slices to read, and the lengths of two to fill.
#[derive(Clone, Copy)]
pub struct Call<'a> {
    pub sheet: &'a [u8],
    pub stimulus: &'a [u8],
    pub output_length: usize,
    pub next_length: usize,
}

/// What a run gives. A slice that is none is left unaltered.
pub struct Outcome {
    pub answer: Answer,
    pub outputs: Option<Vec<u8>>,
    pub next: Option<Vec<u8>>,
}

/// An accepted sheet with a stimulus of whole cycles.
pub struct Ready {
    pub circuit: Circuit,
    /// How many there are; none for an empty stimulus.
    pub cycles: usize,
    /// How many leaves the output has.
    pub leaves: usize,
    /// The length of the output slice that is needed.
    pub output_length: usize,
}

/// The run of any call.
pub fn run(call: &Call) -> Outcome {
    run_watched(call, &mut Watch::nothing())
}

/// The run of any call, with its feedbacks looked at.
pub fn run_watched(call: &Call, watch: &mut Watch) -> Outcome {
    run_by::<Right>(IN_FORCE, call, watch)
}

/// The run of any call by one of the rules for undecided IFs, in some steps.
pub fn run_by<S: Steps>(rule: Rule, call: &Call, watch: &mut Watch) -> Outcome {
    match judge(call) {
        Ok(ready) => {
            let mut stepper = Stepper::<S>::new(&ready.circuit, rule, watch);
            let mut outputs = Vec::with_capacity(ready.output_length);
            for input in stimulus::cycles(&ready.circuit, call.stimulus) {
                outputs.extend(stepper.cycle(input));
            }
            let next = Some(stepper.next_sheet(call.sheet));
            let answer = Answer::accepted(ready.cycles as u32);
            Outcome { answer, outputs: Some(outputs), next }
        }
        Err(answer) => Outcome { answer, outputs: None, next: None },
    }
}

/// Codes 1 to 9.
pub fn ready(sheet: &[u8], stimulus: &[u8]) -> Result<Ready, Answer> {
    let circuit = Circuit::read(sheet)?;
    let faults =
        [stimulus::wrong_stimulus(&circuit, stimulus), stimulus::wrong_input(&circuit, stimulus)];
    let cycles = stimulus::cycles(&circuit, stimulus).len();
    let leaves = circuit.width(circuit.root());
    let ready = Ready { circuit, cycles, leaves, output_length: cycles * leaves };
    faults.into_iter().flatten().next().map_or(Ok(ready), Err)
}

/// All codes, the lowest first.
fn judge(call: &Call) -> Result<Ready, Answer> {
    let ready = ready(call.sheet, call.stimulus)?;
    let faults = [
        wrong_length(WRONG_OUTPUT_LENGTH, call.output_length, ready.output_length),
        wrong_length(WRONG_NEXT_LENGTH, call.next_length, call.sheet.len()),
    ];
    faults.into_iter().flatten().next().map_or(Ok(ready), Err)
}

/// Codes 10 and 11: not the length that is needed, which is the place.
pub fn wrong_length(code: u8, given: usize, needed: usize) -> Option<Answer> {
    (given != needed).then_some(Answer { code, place: needed as u32 })
}
