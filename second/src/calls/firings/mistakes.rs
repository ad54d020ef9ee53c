//! Mistakes in the call for fired alternatives, so that the comparison can be
//! shown to find them. They alter what the call is handed or what it gives.

use super::firing::{firing as right, first_yes, tested, wrong_words, Call, Outcome};
use crate::accepted::Circuit;
use crate::answers::{Answer, ACCEPTED, WRONG_INPUT, WRONG_WORDS};
use crate::evaluator::Tested;
use crate::matching::{said_by_each, Match};
use crate::records::{A, D, IF, KIND};
use crate::stimulus;
use crate::values::{undefined, Value};

#[derive(Clone, Copy, PartialEq, Eq, Debug)]
pub enum FiringMistake {
    /// The last alternative that says yes is told.
    LastYes,
    /// The first record of the chain is told where the chain says yes.
    ChainStart,
    /// The number is written at the record of the tested part.
    AtTestedPart,
    /// The number is that of the evaluation before the last one.
    RoundBefore,
    /// The number is that of the first evaluation.
    FirstRound,
    /// The place of 16 is counted in bytes.
    PlaceInBytes,
    /// An undecided alternative before a yes hides it.
    UndecidedHides,
    /// The words of other records than IFs are not 0.
    OthersNotZero,
    /// A refusal fills the slice with 0.
    RefusalClears,
    /// An empty stimulus is taken, with undefined inputs.
    EmptyTaken,
    /// Two cycles are taken, and the first is told of.
    TwoCyclesTaken,
    /// Code 16 is judged before code 9.
    SixteenBeforeNine,
}

/// Every mistake and its name.
pub const MISTAKES: [(&str, FiringMistake); 12] = [
    ("last-yes", FiringMistake::LastYes),
    ("chain-start", FiringMistake::ChainStart),
    ("at-tested-part", FiringMistake::AtTestedPart),
    ("round-before", FiringMistake::RoundBefore),
    ("first-round", FiringMistake::FirstRound),
    ("place-in-bytes", FiringMistake::PlaceInBytes),
    ("undecided-hides", FiringMistake::UndecidedHides),
    ("others-not-zero", FiringMistake::OthersNotZero),
    ("refusal-clears", FiringMistake::RefusalClears),
    ("empty-taken", FiringMistake::EmptyTaken),
    ("two-cycles-taken", FiringMistake::TwoCyclesTaken),
    ("sixteen-before-nine", FiringMistake::SixteenBeforeNine),
];

/// The answer to a call, or what a mistake makes of it.
pub fn firing(call: &Call, mistake: Option<FiringMistake>) -> Outcome {
    let outcome = right(call);
    let Some(mistake) = mistake else { return outcome };
    let Ok(circuit) = Circuit::read(call.sheet) else { return refused(call, outcome, mistake) };
    let leaves = stimulus::leaves(&circuit);
    let code = outcome.answer.code;
    match mistake {
        FiringMistake::EmptyTaken if call.stimulus.is_empty() => {
            right(&Call { stimulus: &undefined(leaves), ..*call })
        }
        FiringMistake::TwoCyclesTaken if call.stimulus.len() == 2 * leaves => {
            right(&Call { stimulus: &call.stimulus[..leaves], ..*call })
        }
        FiringMistake::SixteenBeforeNine if code == WRONG_INPUT => {
            let answer = wrong_words(&circuit, call).unwrap_or(outcome.answer);
            Outcome { answer, fired: None }
        }
        FiringMistake::PlaceInBytes if code == WRONG_WORDS => {
            let Answer { code, place } = outcome.answer;
            Outcome { answer: Answer { code, place: 2 * place }, fired: None }
        }
        _ if code != ACCEPTED => refused(call, outcome, mistake),
        _ => {
            let words = outcome.fired.unwrap_or_default();
            let fired = Some(told(&circuit, call.stimulus, words, mistake));
            Outcome { answer: outcome.answer, fired }
        }
    }
}

/// A refusal, or one that fills the slice with 0.
fn refused(call: &Call, outcome: Outcome, mistake: FiringMistake) -> Outcome {
    let clears = mistake == FiringMistake::RefusalClears;
    Outcome { fired: clears.then(|| vec![0; call.fired_length]), ..outcome }
}

/// The words that a mistake makes of the right ones.
fn told(circuit: &Circuit, input: &[u8], words: Vec<u16>, mistake: FiringMistake) -> Vec<u16> {
    let tested = tested(circuit, input);
    let elsewhere = if mistake == FiringMistake::OthersNotZero { u16::MAX } else { 0 };
    let mut wrong = vec![elsewhere; words.len()];
    for (number, record) in circuit.records.iter().enumerate() {
        if record[KIND] != IF {
            continue;
        }
        let Tested { first, before, last } = &tested[number];
        let each = said_by_each(circuit, record[D], last);
        let yes = |(_, said): &&(u16, Match)| *said == Match::Yes;
        let number_of = |found: Option<&(u16, Match)>| found.map_or(0, |(pattern, _)| *pattern);
        let on = |round: &Option<Value>| first_yes(circuit, number, round.as_ref().unwrap_or(last));
        let word = match mistake {
            FiringMistake::LastYes => number_of(each.iter().rfind(yes)),
            FiringMistake::ChainStart => number_of(each.iter().find(yes).and(each.first())),
            FiringMistake::UndecidedHides => {
                number_of(each.iter().find(|(_, said)| *said != Match::No).filter(yes))
            }
            FiringMistake::RoundBefore => on(before),
            FiringMistake::FirstRound => on(first),
            _ => words[number],
        };
        let at = match mistake {
            FiringMistake::AtTestedPart => usize::from(record[A]),
            _ => number,
        };
        wrong[at] = word;
    }
    wrong
}
