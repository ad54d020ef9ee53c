//! Mistakes in carrying, so that the comparison can be shown to find them. They
//! alter what the call is handed, what it gives, or the rule for the types.

use std::collections::HashSet;

use super::carry::{carry as right, carry_by, same_pairs, Call, Outcome};
use crate::accepted::Circuit;
use crate::answers::{Answer, ACCEPTED, LABEL_TWICE, NEW_SHEET_REFUSED, WRONG_NEXT_LENGTH};
use crate::labels::{labels, without_labels};
use crate::records::{bytes, read, D, DELAY, KIND};
use crate::simulator::wrong_length;
use crate::values::{undefined, Value};
use crate::verdict::check;

#[derive(Clone, Copy, PartialEq, Eq, Debug)]
pub enum CarryMistake {
    /// Label 0 is one like all others.
    ZeroCounted,
    /// The place of 19 is the first delay with the label.
    FirstBearer,
    /// The place of 19 is the highest delay whose label a lower one bears.
    HighestBearer,
    /// Flat types have the same shape whatever their counts.
    CountsNotCompared,
    /// Types have the same shape where they have as many leaves.
    LeafCountAlone,
    /// Types have the same shape where their leaves have the same counts.
    PairsNotCompared,
    /// A value is carried whatever the types.
    AnyShape,
    /// The carried leaves are those of the new sheet.
    LeavesOfNew,
    /// Delays without a partner hold undefined leaves.
    OthersCleared,
    /// The delays of the next slice have no labels.
    LabelsCleared,
    /// The delay of the same rank is the partner, whatever its label.
    PartnerByRank,
    /// 19 for the new sheet before the old one.
    NewLabelsFirst,
    /// The new sheet is checked before the old one.
    NewFirst,
    /// The new sheet's own code and place.
    CodeOfNew,
    /// The place of 18 is the new sheet's place.
    PlaceOfNew,
    /// 11 is judged before 19.
    ElevenFirst,
    /// 11 for another length than the old sheet's.
    LengthOfOld,
    /// A refusal copies the new sheet to a next slice of its length.
    RefusalFillsNext,
}

/// Every mistake and its name.
pub const MISTAKES: [(&str, CarryMistake); 18] = [
    ("zero-counted", CarryMistake::ZeroCounted),
    ("first-bearer", CarryMistake::FirstBearer),
    ("highest-bearer", CarryMistake::HighestBearer),
    ("counts-not-compared", CarryMistake::CountsNotCompared),
    ("leaf-count-alone", CarryMistake::LeafCountAlone),
    ("pairs-not-compared", CarryMistake::PairsNotCompared),
    ("any-shape", CarryMistake::AnyShape),
    ("leaves-of-new", CarryMistake::LeavesOfNew),
    ("others-cleared", CarryMistake::OthersCleared),
    ("labels-cleared", CarryMistake::LabelsCleared),
    ("partner-by-rank", CarryMistake::PartnerByRank),
    ("new-labels-first", CarryMistake::NewLabelsFirst),
    ("new-first", CarryMistake::NewFirst),
    ("code-of-new", CarryMistake::CodeOfNew),
    ("place-of-new", CarryMistake::PlaceOfNew),
    ("eleven-first", CarryMistake::ElevenFirst),
    ("length-of-old", CarryMistake::LengthOfOld),
    ("refusal-fills-next", CarryMistake::RefusalFillsNext),
];

/// The mistake with this name.
pub fn named(name: &str) -> Option<CarryMistake> {
    MISTAKES.iter().find(|(n, _)| *n == name).map(|(_, m)| *m)
}

/// What is carried, or what a mistake makes of it.
pub fn carry(call: &Call, mistake: Option<CarryMistake>) -> Outcome {
    let Some(mistake) = mistake else { return right(call) };
    let outcome = match mistake {
        CarryMistake::ZeroCounted => zero_counted(call),
        CarryMistake::CountsNotCompared => carry_by(same_pairs, call),
        CarryMistake::LeafCountAlone => {
            carry_by(|old, from, new, to| old.counts(from).len() == new.counts(to).len(), call)
        }
        CarryMistake::PairsNotCompared => {
            carry_by(|old, from, new, to| old.counts(from) == new.counts(to), call)
        }
        CarryMistake::AnyShape => carry_by(|_, _, _, _| true, call),
        CarryMistake::OthersCleared => right(&Call { new: &cleared(call.new), ..*call }),
        CarryMistake::PartnerByRank => partner_by_rank(call),
        _ => right(call),
    };
    let Outcome { answer, next } = outcome;
    let refused = |answer: Answer| Outcome { answer, next: None };
    match (mistake, answer.code) {
        (CarryMistake::LeavesOfNew, ACCEPTED) => Outcome { answer, next: Some(call.new.to_vec()) },
        (CarryMistake::LabelsCleared, ACCEPTED) => {
            Outcome { answer, next: next.map(|next| without_labels(&next)) }
        }
        (CarryMistake::FirstBearer | CarryMistake::HighestBearer, LABEL_TWICE) => {
            refused(other_bearer(call, answer, mistake == CarryMistake::HighestBearer))
        }
        (CarryMistake::NewLabelsFirst, LABEL_TWICE) => {
            let new = right(&Call { old: call.new, ..*call }).answer;
            refused(if new.code == LABEL_TWICE { new } else { answer })
        }
        (CarryMistake::NewFirst, _) if check(call.new).code != ACCEPTED => {
            refused(Answer { code: NEW_SHEET_REFUSED, place: check(call.new).code.into() })
        }
        (CarryMistake::CodeOfNew, NEW_SHEET_REFUSED) => refused(check(call.new)),
        (CarryMistake::PlaceOfNew, NEW_SHEET_REFUSED) => {
            refused(Answer { place: check(call.new).place, ..answer })
        }
        (CarryMistake::ElevenFirst, LABEL_TWICE) => {
            let wrong = wrong_length(WRONG_NEXT_LENGTH, call.next_length, call.new.len());
            refused(wrong.unwrap_or(answer))
        }
        (CarryMistake::LengthOfOld, ACCEPTED | WRONG_NEXT_LENGTH) => {
            let wrong = wrong_length(WRONG_NEXT_LENGTH, call.next_length, call.old.len());
            let carried = || right(&Call { next_length: call.new.len(), ..*call });
            wrong.map_or_else(carried, refused)
        }
        (CarryMistake::RefusalFillsNext, code) if code != ACCEPTED => {
            let fills = call.next_length == call.new.len();
            Outcome { answer, next: fills.then(|| call.new.to_vec()) }
        }
        _ => Outcome { answer, next },
    }
}

/// A sheet with other labels, each made from a delay's rank and its label.
fn relabelled(sheet: &[u8], label: impl Fn(u16, u16) -> u16) -> Vec<u8> {
    let mut records = read(sheet);
    let delays = records.iter_mut().filter(|record| record[KIND] == DELAY);
    for (rank, record) in delays.enumerate() {
        record[D] = label(rank as u16, record[D]);
    }
    bytes(&records)
}

/// Sheets with a new label in place of 0, which the next sheet has again.
fn zero_counted(call: &Call) -> Outcome {
    if Circuit::read(call.old).is_err() || Circuit::read(call.new).is_err() {
        return right(call);
    }
    let used: HashSet<u16> = labels(call.old).into_iter().chain(labels(call.new)).collect();
    let free = (1..=u16::MAX).find(|label| !used.contains(label)).unwrap_or(u16::MAX);
    let [old, new] = [call.old, call.new]
        .map(|sheet| relabelled(sheet, |_, label| if label == 0 { free } else { label }));
    let outcome = right(&Call { old: &old, new: &new, ..*call });
    let again = |next: Vec<u8>| relabelled(&next, |_, label| if label == free { 0 } else { label });
    Outcome { next: outcome.next.map(again), ..outcome }
}

/// Ranks in place of labels, where the call is accepted.
fn partner_by_rank(call: &Call) -> Outcome {
    let outcome = right(call);
    if outcome.answer.code != ACCEPTED {
        return outcome;
    }
    let old = relabelled(call.old, |rank, _| rank + 1);
    let new = relabelled(call.new, |rank, label| if label == 0 { 0 } else { rank + 1 });
    let own = labels(call.new);
    let again = |next: Vec<u8>| relabelled(&next, |rank, _| own[usize::from(rank)]);
    let outcome = right(&Call { old: &old, new: &new, ..*call });
    Outcome { next: outcome.next.map(again), ..outcome }
}

/// A sheet whose delays hold undefined leaves, if it is accepted.
fn cleared(sheet: &[u8]) -> Vec<u8> {
    let mut next = sheet.to_vec();
    if let Ok(circuit) = Circuit::read(sheet) {
        let zeros: Vec<Value> =
            circuit.leaves.iter().map(|leaves| undefined(leaves.len())).collect();
        circuit.hold(&mut next, &zeros);
    }
    next
}

/// Code 19 at the first delay with the label that is told of, or at the highest
/// one whose label a lower one bears.
fn other_bearer(call: &Call, answer: Answer, highest: bool) -> Answer {
    let of_old = right(&Call { new: call.old, next_length: call.old.len(), ..*call });
    let sheet = if of_old.answer.code == LABEL_TWICE { call.old } else { call.new };
    let records = read(sheet);
    let delays: Vec<usize> =
        (1..records.len()).filter(|&number| records[number][KIND] == DELAY).collect();
    let label = |delay: &usize| records[*delay][D];
    let place = if highest {
        let borne = |delay: &&usize| {
            label(delay) != 0
                && delays.iter().any(|other| other < delay && label(other) == label(delay))
        };
        delays.iter().rfind(borne)
    } else {
        delays.iter().find(|delay| label(delay) == label(&(answer.place as usize)))
    };
    Answer { place: place.map_or(answer.place, |delay| *delay as u32), ..answer }
}
