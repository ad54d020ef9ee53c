//! Replaying a panel record: whether recorded outputs are those that a sheet
//! makes of a stimulus, and if not, where they differ first; a code of 0 to 9,
//! 17 or 11, and a place.

use crate::answers::{Answer, WRONG_NEXT_LENGTH};
use crate::evaluator::Right;
use crate::rule::IN_FORCE;
use crate::simulator::{ready, wrong_length, Ready};
use crate::stepper::Stepper;
use crate::stimulus;
use crate::values::Value;
use crate::watch::Watch;

/// The recorded outputs are not as many as cycles times output leaves.
pub const WRONG_RECORDED_LENGTH: u8 = 17;

/// What a replay is handed: three slices to read, and the length of one to fill.
#[derive(Clone, Copy)]
pub struct Call<'a> {
    pub sheet: &'a [u8],
    pub stimulus: &'a [u8],
    pub recorded: &'a [u8],
    pub next_length: usize,
}

/// A leaf of a record: its cycle, and its number within the cycle, from 0.
#[derive(Clone, Copy, PartialEq, Eq, Debug)]
pub struct Place {
    pub cycle: usize,
    pub leaf: usize,
}

/// What is found of a record.
#[derive(Clone, Copy, PartialEq, Eq, Debug)]
pub enum Finding {
    /// It is the run's, of so many cycles.
    Agrees(usize),
    /// It is not: the first cycle that differs, and its lowest leaf that does.
    Differs(Place),
}

/// What a replay gives. A next slice that is none is left unaltered.
#[derive(Clone, PartialEq, Eq, Debug)]
pub struct Outcome {
    pub answer: Answer,
    /// None on a refusal.
    pub found: Option<Finding>,
    pub next: Option<Vec<u8>>,
}

impl Outcome {
    pub fn refused(answer: Answer) -> Outcome {
        Outcome { answer, found: None, next: None }
    }

    /// The numbers beside the answer: whether the record differs, the cycle and
    /// the leaf.
    pub fn numbers(&self) -> [u64; 3] {
        match self.found {
            None => [0; 3],
            Some(Finding::Agrees(cycles)) => [0, cycles as u64, 0],
            Some(Finding::Differs(Place { cycle, leaf })) => [1, cycle as u64, leaf as u64],
        }
    }
}

/// The rules that a comparison can replace to make a mistake.
#[derive(Clone, Copy)]
pub struct Rules {
    /// Whether a recorded leaf is the one that the run gives.
    pub same: fn(recorded: u8, given: u8) -> bool,
    /// The place that is given, of those that differ: they come cycle by cycle,
    /// and in each the lowest leaf first.
    pub first: fn(&[Place]) -> Option<Place>,
    /// The outputs of one cycle, after which the delays hold their next values.
    pub cycle: fn(&mut Stepper<Right>, &[u8]) -> Value,
}

pub const RULES: Rules = Rules {
    same: |recorded, given| recorded == given,
    first: |places| places.first().copied(),
    cycle: |stepper, input| stepper.cycle(input),
};

/// The replay of any call.
pub fn replay(call: &Call) -> Outcome {
    replay_by(&RULES, call)
}

/// The replay of any call by some rules.
pub fn replay_by(rules: &Rules, call: &Call) -> Outcome {
    match judge(call) {
        Ok(ready) => compared(rules, &ready, call),
        Err(answer) => Outcome::refused(answer),
    }
}

/// The first that applies of 1 to 7, 8, 9, 17 and 11.
fn judge(call: &Call) -> Result<Ready, Answer> {
    let ready = ready(call.sheet, call.stimulus)?;
    let faults = [wrong_record(&ready, call), wrong_next(call)];
    faults.into_iter().flatten().next().map_or(Ok(ready), Err)
}

/// Code 17: not the length of the run's outputs, which is the place.
pub fn wrong_record(ready: &Ready, call: &Call) -> Option<Answer> {
    wrong_length(WRONG_RECORDED_LENGTH, call.recorded.len(), ready.output_length)
}

/// Code 11: not the length of the sheet, which is the place.
pub fn wrong_next(call: &Call) -> Option<Answer> {
    wrong_length(WRONG_NEXT_LENGTH, call.next_length, call.sheet.len())
}

/// The run, each of its cycles beside the recorded one.
fn compared(rules: &Rules, ready: &Ready, call: &Call) -> Outcome {
    let mut watch = Watch::nothing();
    let mut stepper = Stepper::<Right>::new(&ready.circuit, IN_FORCE, &mut watch);
    let inputs = stimulus::cycles(&ready.circuit, call.stimulus);
    let mut differing = Vec::new();
    for (cycle, (input, recorded)) in
        inputs.zip(call.recorded.chunks_exact(ready.leaves)).enumerate()
    {
        let given = (rules.cycle)(&mut stepper, input);
        let leaves = (0..ready.leaves).filter(|&leaf| !(rules.same)(recorded[leaf], given[leaf]));
        differing.extend(leaves.map(|leaf| Place { cycle, leaf }));
    }
    let answer = Answer::accepted(0);
    match (rules.first)(&differing) {
        Some(place) => Outcome { answer, found: Some(Finding::Differs(place)), next: None },
        None => {
            let next = Some(stepper.next_sheet(call.sheet));
            Outcome { answer, found: Some(Finding::Agrees(ready.cycles)), next }
        }
    }
}
