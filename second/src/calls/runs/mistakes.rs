//! Mistakes in the run, so that comparisons can be shown to find them. They
//! alter what the run gives, or take a wrong step.

use super::wrong_steps::{
    ChainNoWhenUndecided, ChosenBranchOnly, DelayEveryRound, DelaysOfFirstRound,
    EarlierInFeedbacks, ElseWhenUndecided, FromFirstConstructors, FromLastCycle,
    PairMatchUndecided, TwoApplications,
};
use crate::accepted::Circuit;
use crate::answers::{
    Answer, ACCEPTED, WRONG_INPUT, WRONG_NEXT_LENGTH, WRONG_OUTPUT_LENGTH, WRONG_STIMULUS,
};
use crate::evaluator::Right;
use crate::labels::without_labels;
use crate::rule::{Rule, IN_FORCE};
use crate::simulator::{self, wrong_length, Call, Outcome};
use crate::stimulus;
use crate::watch::Watch;

#[derive(Clone, Copy, PartialEq, Eq, Debug)]
pub enum RunMistake {
    /// Every output leaf is undefined.
    UndefinedEverywhere,
    /// The next slice is the sheet handed in.
    CopySheet,
    /// Every cycle has the outputs of cycle 0.
    CycleZeroAgain,
    /// A feedback starts from the first constructor in every leaf, where that
    /// settles.
    StopsAtSomeFixedPoint,
    /// A feedback starts from its value in the cycle before.
    StartedFromLastCycle,
    /// The count of cycles is the stimulus's length.
    InventedCount,
    /// A feedback ends after two applications.
    EndsAfterTwo,
    /// Delays in a feedback advance after each application.
    DelayEveryRound,
    /// Delays in a feedback hold next what its first application gave them.
    DelaysOfFirstRound,
    /// The delays of a branch that is not taken keep their values.
    ChosenBranchOnly,
    /// A pair match is undecided although one part says no.
    PairMatchUndecided,
    /// A chain says no where it is undecided.
    ChainNoWhenUndecided,
    /// An undecided IF gives the value of its else part.
    ElseWhenUndecided,
    /// An undecided IF is undefined in every leaf.
    EarlierRule,
    /// An undecided IF in the defining part of a feedback is undefined in
    /// every leaf.
    EarlierRuleInFeedbacks,
    /// Every output leaf stands one place later, the last one first.
    OutputOneLeafOff,
    /// A refusal fills the output slice with 0.
    RefusalClearsOut,
    /// A refusal copies the sheet to a next slice of its length.
    RefusalFillsNext,
    /// An empty stimulus is refused with code 8.
    EmptyRefused,
    /// Code 9 is judged before code 8.
    NineBeforeEight,
    /// Code 10 is judged before code 9.
    TenBeforeNine,
    /// Code 11 is judged before code 10.
    ElevenBeforeTen,
    /// The place of code 9 is counted from the start of its cycle.
    PlaceOfNineInCycle,
    /// The delays of the next sheet have no labels.
    LabelsCleared,
}

/// Every mistake and its name.
pub const MISTAKES: [(&str, RunMistake); 24] = [
    ("undefined-everywhere", RunMistake::UndefinedEverywhere),
    ("copy-sheet", RunMistake::CopySheet),
    ("cycle-zero-again", RunMistake::CycleZeroAgain),
    ("stops-at-some-fixed-point", RunMistake::StopsAtSomeFixedPoint),
    ("started-from-last-cycle", RunMistake::StartedFromLastCycle),
    ("invented-count", RunMistake::InventedCount),
    ("ends-after-two", RunMistake::EndsAfterTwo),
    ("delay-every-round", RunMistake::DelayEveryRound),
    ("delays-of-first-round", RunMistake::DelaysOfFirstRound),
    ("chosen-branch-only", RunMistake::ChosenBranchOnly),
    ("pair-match-undecided", RunMistake::PairMatchUndecided),
    ("chain-no-when-undecided", RunMistake::ChainNoWhenUndecided),
    ("else-when-undecided", RunMistake::ElseWhenUndecided),
    ("earlier-rule", RunMistake::EarlierRule),
    ("earlier-rule-in-feedbacks", RunMistake::EarlierRuleInFeedbacks),
    ("output-one-leaf-off", RunMistake::OutputOneLeafOff),
    ("refusal-clears-out", RunMistake::RefusalClearsOut),
    ("refusal-fills-next", RunMistake::RefusalFillsNext),
    ("empty-refused", RunMistake::EmptyRefused),
    ("nine-before-eight", RunMistake::NineBeforeEight),
    ("ten-before-nine", RunMistake::TenBeforeNine),
    ("eleven-before-ten", RunMistake::ElevenBeforeTen),
    ("place-of-nine-in-cycle", RunMistake::PlaceOfNineInCycle),
    ("labels-cleared", RunMistake::LabelsCleared),
];

/// The mistake with this name.
pub fn named(name: &str) -> Option<RunMistake> {
    MISTAKES.iter().find(|(n, _)| *n == name).map(|(_, m)| *m)
}

/// The run of a call, or what a mistake makes of it.
pub fn run(call: &Call, mistake: Option<RunMistake>) -> Outcome {
    run_by(IN_FORCE, call, mistake, &mut Watch::nothing())
}

/// The run of a call by one of the rules for undecided IFs, or what a mistake
/// makes of it.
pub fn run_by(rule: Rule, call: &Call, mistake: Option<RunMistake>, watch: &mut Watch) -> Outcome {
    let Some(mistake) = mistake else { return simulator::run_by::<Right>(rule, call, watch) };
    let outcome = match mistake {
        RunMistake::StopsAtSomeFixedPoint => {
            simulator::run_by::<FromFirstConstructors>(rule, call, watch)
        }
        RunMistake::StartedFromLastCycle => simulator::run_by::<FromLastCycle>(rule, call, watch),
        RunMistake::EndsAfterTwo => simulator::run_by::<TwoApplications>(rule, call, watch),
        RunMistake::DelayEveryRound => simulator::run_by::<DelayEveryRound>(rule, call, watch),
        RunMistake::DelaysOfFirstRound => {
            simulator::run_by::<DelaysOfFirstRound>(rule, call, watch)
        }
        RunMistake::ChosenBranchOnly => simulator::run_by::<ChosenBranchOnly>(rule, call, watch),
        RunMistake::PairMatchUndecided => {
            simulator::run_by::<PairMatchUndecided>(rule, call, watch)
        }
        RunMistake::ChainNoWhenUndecided => {
            simulator::run_by::<ChainNoWhenUndecided>(rule, call, watch)
        }
        RunMistake::ElseWhenUndecided => simulator::run_by::<ElseWhenUndecided>(rule, call, watch),
        RunMistake::EarlierRule => simulator::run_by::<Right>(Rule::Earlier, call, watch),
        RunMistake::EarlierRuleInFeedbacks => {
            simulator::run_by::<EarlierInFeedbacks>(rule, call, watch)
        }
        _ => simulator::run_by::<Right>(rule, call, watch),
    };
    match outcome.answer.code {
        ACCEPTED => of_accepted(call, outcome, mistake),
        _ => of_refused(call, outcome, mistake),
    }
}

/// What a mistake makes of a run that is accepted.
fn of_accepted(call: &Call, outcome: Outcome, mistake: RunMistake) -> Outcome {
    let Outcome { mut answer, outputs, next } = outcome;
    let (mut outputs, mut next) = (outputs.unwrap_or_default(), next.unwrap_or_default());
    let cycles = answer.place as usize;
    match mistake {
        RunMistake::UndefinedEverywhere => outputs.fill(0),
        RunMistake::CopySheet => next = call.sheet.to_vec(),
        RunMistake::LabelsCleared => next = without_labels(&next),
        RunMistake::CycleZeroAgain => {
            outputs.truncate(outputs.len().checked_div(cycles).unwrap_or(0));
            outputs = outputs.repeat(cycles);
        }
        RunMistake::InventedCount => answer.place = call.stimulus.len() as u32,
        RunMistake::OutputOneLeafOff => outputs.rotate_right(1.min(call.output_length)),
        RunMistake::EmptyRefused if call.stimulus.is_empty() => return empty_refused(),
        _ => {}
    }
    Outcome { answer, outputs: Some(outputs), next: Some(next) }
}

fn empty_refused() -> Outcome {
    let answer = Answer { code: WRONG_STIMULUS, place: 0 };
    Outcome { answer, outputs: None, next: None }
}

/// What a mistake makes of a run that is refused: of its slices, or of the
/// order of its codes.
fn of_refused(call: &Call, outcome: Outcome, mistake: RunMistake) -> Outcome {
    let answer = outcome.answer;
    let next_length = wrong_length(WRONG_NEXT_LENGTH, call.next_length, call.sheet.len());
    let Ok(circuit) = Circuit::read(call.sheet) else {
        return slices_of_refused(call, answer, mistake);
    };
    let leaves = stimulus::leaves(&circuit);
    let needed = call.stimulus.len() / leaves * circuit.width(circuit.root());
    let output_length = wrong_length(WRONG_OUTPUT_LENGTH, call.output_length, needed);
    let instead = match (mistake, answer.code) {
        (RunMistake::NineBeforeEight, WRONG_STIMULUS) => {
            stimulus::wrong_input(&circuit, call.stimulus)
        }
        (RunMistake::TenBeforeNine, WRONG_INPUT) => output_length,
        (RunMistake::ElevenBeforeTen, WRONG_OUTPUT_LENGTH) => next_length,
        (RunMistake::PlaceOfNineInCycle, WRONG_INPUT) => {
            Some(Answer { place: answer.place % leaves as u32, ..answer })
        }
        (RunMistake::EmptyRefused, _) if call.stimulus.is_empty() => return empty_refused(),
        _ => None,
    };
    slices_of_refused(call, instead.unwrap_or(answer), mistake)
}

/// The slices that a mistake fills although the call is refused.
fn slices_of_refused(call: &Call, answer: Answer, mistake: RunMistake) -> Outcome {
    let clears = mistake == RunMistake::RefusalClearsOut;
    let fills = mistake == RunMistake::RefusalFillsNext && call.next_length == call.sheet.len();
    let outputs = clears.then(|| vec![0; call.output_length]);
    Outcome { answer, outputs, next: fills.then(|| call.sheet.to_vec()) }
}
