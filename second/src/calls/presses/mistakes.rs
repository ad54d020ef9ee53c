//! Mistakes in the press, so that the comparison can be shown to find them.
//! They alter what the press is handed or what it gives, or replace a rule.

use super::press::{
    lowest_first, press as right, press_by, Call, Change, Outcome, Rules, RULES,
};
use crate::accepted::Circuit;
use crate::answers::{Answer, ACCEPTED, NO_OUTPUT_LEAF, WRONG_INPUT, WRONG_STIMULUS};
use crate::one_leaf::judging::no_output_leaf;
use crate::simulator::{self, run};
use crate::stimulus;
use crate::values::undefined;

#[derive(Clone, Copy, PartialEq, Eq, Debug)]
pub enum PressMistake {
    /// At the leaf that is told, the present value is taken for a change too.
    PresentTaken,
    /// The highest constructor is told.
    HighestConstructor,
    /// The last constructor of a leaf is not tried.
    LastNotTried,
    /// The highest leaf is told.
    HighestLeaf,
    /// The lowest constructor is told, and for it the lowest leaf.
    ConstructorFirst,
    /// A leaf can be changed to undefined too.
    ToUndefined,
    /// Undefined leaves are not changed.
    UndefinedKept,
    /// An output leaf from or to undefined is not seen as altered.
    OnlyDefined,
    /// A changed leaf is not put back.
    NotPutBack,
    /// The output leaf after the one asked for is looked at.
    OtherLeaf,
    /// Output leaves are counted from 1.
    FromOne,
    /// The number of the output leaf is cut to 32 bits.
    NumberCut,
    /// Delays hold what they hold after the cycle.
    DelaysAfter,
    /// Two cycles are taken, and the first is looked at.
    TwoCyclesTaken,
    /// An empty stimulus is taken for undefined inputs.
    EmptyTaken,
    /// Code 9 is judged before code 8.
    NineBeforeEight,
    /// Code 21 is judged before codes 8 and 9.
    LeafBeforeEight,
    /// Code 21 is judged before code 9.
    LeafBeforeNine,
    /// The place of 21 is the number of the leaf.
    PlaceIsLeaf,
    /// A refusal tells of a change.
    RefusalTells,
}

/// Every mistake and its name.
pub const MISTAKES: [(&str, PressMistake); 20] = [
    ("present-taken", PressMistake::PresentTaken),
    ("highest-constructor", PressMistake::HighestConstructor),
    ("last-not-tried", PressMistake::LastNotTried),
    ("highest-leaf", PressMistake::HighestLeaf),
    ("constructor-first", PressMistake::ConstructorFirst),
    ("to-undefined", PressMistake::ToUndefined),
    ("undefined-kept", PressMistake::UndefinedKept),
    ("only-defined", PressMistake::OnlyDefined),
    ("not-put-back", PressMistake::NotPutBack),
    ("other-leaf", PressMistake::OtherLeaf),
    ("from-one", PressMistake::FromOne),
    ("number-cut", PressMistake::NumberCut),
    ("delays-after", PressMistake::DelaysAfter),
    ("two-cycles-taken", PressMistake::TwoCyclesTaken),
    ("empty-taken", PressMistake::EmptyTaken),
    ("nine-before-eight", PressMistake::NineBeforeEight),
    ("leaf-before-eight", PressMistake::LeafBeforeEight),
    ("leaf-before-nine", PressMistake::LeafBeforeNine),
    ("place-is-leaf", PressMistake::PlaceIsLeaf),
    ("refusal-tells", PressMistake::RefusalTells),
];

/// The rules with a mistake in one of them; none for a mistake elsewhere.
fn wrong_rules(mistake: PressMistake) -> Option<Rules> {
    let rules = match mistake {
        PressMistake::HighestConstructor => Rules { changes: highest_constructor_first, ..RULES },
        PressMistake::LastNotTried => Rules { changes: without_the_last, ..RULES },
        PressMistake::HighestLeaf => Rules { changes: highest_leaf_first, ..RULES },
        PressMistake::ConstructorFirst => Rules { changes: by_constructor, ..RULES },
        PressMistake::ToUndefined => Rules { changes: to_undefined_too, ..RULES },
        PressMistake::UndefinedKept => Rules { changes: of_defined_leaves, ..RULES },
        PressMistake::OnlyDefined => {
            Rules { alters: |before, after| before != after && before != 0 && after != 0, ..RULES }
        }
        PressMistake::NotPutBack => Rules { put_back: |_, _| {}, ..RULES },
        _ => return None,
    };
    Some(rules)
}

fn highest_constructor_first(input: &[u8], counts: &[u8]) -> Vec<Change> {
    let mut changes = lowest_first(input, counts);
    changes.sort_by_key(|change| (change.leaf, u8::MAX - change.constructor));
    changes
}

fn without_the_last(input: &[u8], counts: &[u8]) -> Vec<Change> {
    let mut changes = lowest_first(input, counts);
    changes.retain(|change| change.constructor < counts[change.leaf]);
    changes
}

fn highest_leaf_first(input: &[u8], counts: &[u8]) -> Vec<Change> {
    let mut changes = lowest_first(input, counts);
    changes.sort_by_key(|change| (usize::MAX - change.leaf, change.constructor));
    changes
}

fn by_constructor(input: &[u8], counts: &[u8]) -> Vec<Change> {
    let mut changes = lowest_first(input, counts);
    changes.sort_by_key(|change| (change.constructor, change.leaf));
    changes
}

fn to_undefined_too(input: &[u8], counts: &[u8]) -> Vec<Change> {
    let mut changes = lowest_first(input, counts);
    changes.extend((0..input.len()).map(|leaf| Change { leaf, constructor: 0 }));
    changes.sort_by_key(|change| (change.leaf, change.constructor));
    changes
}

fn of_defined_leaves(input: &[u8], counts: &[u8]) -> Vec<Change> {
    let mut changes = lowest_first(input, counts);
    changes.retain(|change| input[change.leaf] != 0);
    changes
}

/// The press of a call, or what a mistake makes of it.
pub fn press(call: &Call, mistake: Option<PressMistake>) -> Outcome {
    let Some(mistake) = mistake else { return right(call) };
    match wrong_rules(mistake) {
        Some(rules) => press_by(&rules, call),
        None => wrong_around(call, mistake),
    }
}

/// A mistake in what the press is handed or in what it gives.
fn wrong_around(call: &Call, mistake: PressMistake) -> Outcome {
    let outcome = right(call);
    let refused = |answer| Outcome { answer, change: None };
    let code = outcome.answer.code;
    if mistake == PressMistake::RefusalTells && code != ACCEPTED {
        return Outcome { change: Some(Change { leaf: 0, constructor: 1 }), ..outcome };
    }
    let Ok(circuit) = Circuit::read(call.sheet) else { return outcome };
    let leaves = stimulus::leaves(&circuit);
    let instead = match mistake {
        PressMistake::PresentTaken => {
            let change = outcome.change.map(|change| with_present(change, call.stimulus));
            Some(Outcome { change, ..outcome })
        }
        PressMistake::OtherLeaf if code == ACCEPTED => {
            let leaf = (call.leaf + 1) % circuit.width(circuit.root());
            Some(right(&Call { leaf, ..*call }))
        }
        PressMistake::FromOne => Some(right(&Call { leaf: call.leaf.wrapping_sub(1), ..*call })),
        PressMistake::NumberCut => {
            Some(right(&Call { leaf: call.leaf & u32::MAX as usize, ..*call }))
        }
        PressMistake::DelaysAfter if code == ACCEPTED => {
            let output_length = circuit.width(circuit.root());
            let Call { sheet, stimulus, .. } = *call;
            let next_length = sheet.len();
            let next = run(&simulator::Call { sheet, stimulus, output_length, next_length }).next;
            next.map(|next| right(&Call { sheet: &next, ..*call }))
        }
        PressMistake::TwoCyclesTaken if call.stimulus.len() == 2 * leaves => {
            Some(right(&Call { stimulus: &call.stimulus[..leaves], ..*call }))
        }
        PressMistake::EmptyTaken if call.stimulus.is_empty() => {
            Some(right(&Call { stimulus: &undefined(leaves), ..*call }))
        }
        PressMistake::NineBeforeEight if code == WRONG_STIMULUS => {
            stimulus::wrong_input(&circuit, call.stimulus).map(refused)
        }
        PressMistake::LeafBeforeEight if [WRONG_STIMULUS, WRONG_INPUT].contains(&code) => {
            no_output_leaf(&circuit, call.leaf).map(refused)
        }
        PressMistake::LeafBeforeNine if code == WRONG_INPUT => {
            no_output_leaf(&circuit, call.leaf).map(refused)
        }
        PressMistake::PlaceIsLeaf if code == NO_OUTPUT_LEAF => {
            Some(refused(Answer { code, place: call.leaf as u32 }))
        }
        _ => None,
    };
    instead.unwrap_or(outcome)
}

/// A change to the lower of its constructor and its leaf's defined value.
fn with_present(change: Change, input: &[u8]) -> Change {
    let present = input[change.leaf];
    let constructor = change.constructor.min(if present == 0 { u8::MAX } else { present });
    Change { constructor, ..change }
}
