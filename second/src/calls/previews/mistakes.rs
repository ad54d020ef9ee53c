//! Mistakes in the preview, so that the comparison can be shown to find them.
//! They alter what the preview is handed or what it gives.

use super::preview::{preview as right, wrong_output_length, Call, Outcome};
use crate::accepted::Circuit;
use crate::answers::{Answer, ACCEPTED, WRONG_INPUT, WRONG_OUTPUT_LENGTH, WRONG_STIMULUS};
use crate::simulator::{self, run, wrong_length};
use crate::stimulus;

#[derive(Clone, Copy, PartialEq, Eq, Debug)]
pub enum PreviewMistake {
    /// Two cycles are taken, and the first is shown.
    TwoCyclesTaken,
    /// An empty stimulus is taken for a run of no cycles.
    EmptyTaken,
    /// The output slice is to be as long as the input has leaves.
    InputLeaves,
    /// Delays are shown with what they hold after the cycle.
    DelaysAfter,
    /// A refusal fills the output slice with 0.
    RefusalClearsOut,
    /// Code 9 is judged before code 8.
    NineBeforeEight,
    /// Code 10 is judged before code 9.
    TenBeforeNine,
    /// The place of 0 is the number of cycles.
    PlaceOfRun,
}

/// Every mistake and its name.
pub const MISTAKES: [(&str, PreviewMistake); 8] = [
    ("two-cycles-taken", PreviewMistake::TwoCyclesTaken),
    ("empty-taken", PreviewMistake::EmptyTaken),
    ("input-leaves", PreviewMistake::InputLeaves),
    ("delays-after", PreviewMistake::DelaysAfter),
    ("refusal-clears-out", PreviewMistake::RefusalClearsOut),
    ("nine-before-eight", PreviewMistake::NineBeforeEight),
    ("ten-before-nine", PreviewMistake::TenBeforeNine),
    ("place-of-run", PreviewMistake::PlaceOfRun),
];

/// The preview of a call, or what a mistake makes of it.
pub fn preview(call: &Call, mistake: Option<PreviewMistake>) -> Outcome {
    let outcome = right(call);
    let Some(mistake) = mistake else { return outcome };
    if mistake == PreviewMistake::RefusalClearsOut {
        return cleared(call, outcome);
    }
    let Ok(circuit) = Circuit::read(call.sheet) else { return outcome };
    let leaves = stimulus::leaves(&circuit);
    let refused = |answer: Option<Answer>| answer.map(|answer| Outcome { answer, outputs: None });
    let code = outcome.answer.code;
    let instead = match mistake {
        PreviewMistake::TwoCyclesTaken if call.stimulus.len() == 2 * leaves => {
            Some(right(&Call { stimulus: &call.stimulus[..leaves], ..*call }))
        }
        PreviewMistake::EmptyTaken if call.stimulus.is_empty() => {
            let outputs = Some(Vec::new());
            let taken = Outcome { answer: Answer::accepted(0), outputs };
            let too_long = wrong_length(WRONG_OUTPUT_LENGTH, call.output_length, 0);
            Some(refused(too_long).unwrap_or(taken))
        }
        PreviewMistake::InputLeaves if [ACCEPTED, WRONG_OUTPUT_LENGTH].contains(&code) => {
            let shown = right(&Call { output_length: circuit.width(circuit.root()), ..*call });
            let wrong = wrong_length(WRONG_OUTPUT_LENGTH, call.output_length, leaves);
            Some(refused(wrong).unwrap_or(shown))
        }
        PreviewMistake::DelaysAfter if code == ACCEPTED => {
            let (output_length, next_length) = (call.output_length, call.sheet.len());
            let Call { sheet, stimulus, .. } = *call;
            let next = run(&simulator::Call { sheet, stimulus, output_length, next_length }).next;
            next.map(|next| right(&Call { sheet: &next, ..*call }))
        }
        PreviewMistake::NineBeforeEight if code == WRONG_STIMULUS => {
            refused(stimulus::wrong_input(&circuit, call.stimulus))
        }
        PreviewMistake::TenBeforeNine if code == WRONG_INPUT => {
            refused(wrong_output_length(&circuit, call))
        }
        PreviewMistake::PlaceOfRun if code == ACCEPTED => {
            return Outcome { answer: Answer::accepted(1), ..outcome };
        }
        _ => None,
    };
    instead.unwrap_or(outcome)
}

/// A refusal that fills the output slice with 0.
fn cleared(call: &Call, outcome: Outcome) -> Outcome {
    let zeros = || vec![0; call.output_length];
    Outcome { outputs: Some(outcome.outputs.unwrap_or_else(zeros)), ..outcome }
}
