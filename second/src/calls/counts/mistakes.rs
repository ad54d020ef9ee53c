//! Mistakes in the count, so that the comparison can be shown to find them.
//! They alter what the count is handed or what it gives, or replace a rule.

use super::counting::{
    count as right, count_by, inputs, Call, Counters, Outcome, Rules, MOST_INPUTS, NONE, RULES,
    TOO_MANY_INPUTS,
};
use super::products::JUST_OVER;
use crate::accepted::Circuit;
use crate::answers::{Answer, ACCEPTED, NO_OUTPUT_LEAF};
use crate::evaluator::Right;
use crate::one_leaf::judging::no_output_leaf;
use crate::rule::IN_FORCE;
use crate::stepper::Stepper;
use crate::watch::Watch;

#[derive(Clone, Copy, PartialEq, Eq, Debug)]
pub enum CountMistake {
    /// Undefined leaves are among the inputs.
    UndefinedCounted,
    /// The last constructor of each leaf is left out.
    LastNotTried,
    /// A leaf of one constructor stays undefined.
    SingleSkipped,
    /// The value for the first input is taken for all.
    FirstForAll,
    /// The value for the first input with a constructor of the first leaf is
    /// taken for all with it.
    FirstOfLeaf,
    /// The value for the undefined input is taken for all.
    UndefinedForAll,
    /// An output leaf that no input leaf decides is counted once.
    SettledOnce,
    /// Inputs that leave the output leaf undefined are not counted.
    ZeroDropped,
    /// Each input is taken, so that the delays move before the next one.
    DelaysMove,
    /// The output leaf after the one asked for is looked at.
    OtherLeaf,
    /// Output leaves are counted from 1.
    FromOne,
    /// The number of the output leaf is cut to 32 bits.
    NumberCut,
    /// The number of output leaves is taken for the last one.
    AtCountTaken,
    /// Values are cut to 7 bits.
    ValueCut,
    /// Counters are cut to 16 bits.
    CounterCut,
    /// 65,535 inputs are the most.
    LowerLimit,
    /// 65,540 inputs are the most.
    HigherLimit,
    /// The product is cut to 32 bits.
    ProductCut,
    /// Code 21 is judged before code 20.
    LeafBeforeInputs,
    /// The place of 20 is the number of inputs.
    PlaceIsInputs,
    /// The place of 21 is the number of the leaf.
    PlaceIsLeaf,
    /// A refusal of an accepted sheet leaves the counters of its first leaf.
    NotCleared,
    /// A refusal of the sheet leaves a counter above 0.
    RefusalCounts,
}

/// Every mistake and its name.
pub const MISTAKES: [(&str, CountMistake); 23] = [
    ("undefined-counted", CountMistake::UndefinedCounted),
    ("last-not-tried", CountMistake::LastNotTried),
    ("single-skipped", CountMistake::SingleSkipped),
    ("first-for-all", CountMistake::FirstForAll),
    ("first-of-leaf", CountMistake::FirstOfLeaf),
    ("undefined-for-all", CountMistake::UndefinedForAll),
    ("settled-once", CountMistake::SettledOnce),
    ("zero-dropped", CountMistake::ZeroDropped),
    ("delays-move", CountMistake::DelaysMove),
    ("other-leaf", CountMistake::OtherLeaf),
    ("from-one", CountMistake::FromOne),
    ("number-cut", CountMistake::NumberCut),
    ("at-count-taken", CountMistake::AtCountTaken),
    ("value-cut", CountMistake::ValueCut),
    ("counter-cut", CountMistake::CounterCut),
    ("lower-limit", CountMistake::LowerLimit),
    ("higher-limit", CountMistake::HigherLimit),
    ("product-cut", CountMistake::ProductCut),
    ("leaf-before-inputs", CountMistake::LeafBeforeInputs),
    ("place-is-inputs", CountMistake::PlaceIsInputs),
    ("place-is-leaf", CountMistake::PlaceIsLeaf),
    ("not-cleared", CountMistake::NotCleared),
    ("refusal-counts", CountMistake::RefusalCounts),
];

/// The rules with a mistake in one of them; none for a mistake elsewhere.
fn wrong_rules(mistake: CountMistake) -> Option<Rules> {
    let rules = match mistake {
        CountMistake::UndefinedCounted => Rules { values: |count| 0..=count, ..RULES },
        CountMistake::LastNotTried => Rules { values: |count| 1..=count - 1, ..RULES },
        CountMistake::SingleSkipped => {
            Rules { values: |count| if count == 1 { 0..=0 } else { 1..=count }, ..RULES }
        }
        CountMistake::DelaysMove => {
            Rules { outputs: |stepper, input| stepper.cycle(input), ..RULES }
        }
        CountMistake::ValueCut => Rules { counter: |value| usize::from(value & 127), ..RULES },
        CountMistake::LowerLimit => Rules { most: MOST_INPUTS - 1, ..RULES },
        CountMistake::HigherLimit => Rules { most: JUST_OVER, ..RULES },
        _ => return None,
    };
    Some(rules)
}

/// The count of a call, or what a mistake makes of it.
pub fn count(call: &Call, mistake: Option<CountMistake>) -> Outcome {
    let Some(mistake) = mistake else { return right(call) };
    match wrong_rules(mistake) {
        Some(rules) => count_by(&rules, call),
        None => wrong_around(call, mistake),
    }
}

/// A mistake in what the count is handed or in what it gives.
fn wrong_around(call: &Call, mistake: CountMistake) -> Outcome {
    let mut outcome = right(call);
    let Ok(circuit) = Circuit::read(call.sheet) else {
        if mistake == CountMistake::RefusalCounts {
            outcome.counters[0] = 1;
        }
        return outcome;
    };
    let leaves = circuit.width(circuit.root());
    let on_leaf = |leaf: usize| Some(right(&Call { leaf, ..*call }));
    let place = |place: u32| Some(Outcome::refused(Answer { place, ..outcome.answer }));
    let instead = match (mistake, outcome.answer.code) {
        (CountMistake::FromOne, _) => on_leaf(call.leaf.wrapping_sub(1)),
        (CountMistake::NumberCut, _) => on_leaf(call.leaf & u32::MAX as usize),
        (CountMistake::OtherLeaf, ACCEPTED) => on_leaf((call.leaf + 1) % leaves),
        (CountMistake::AtCountTaken, NO_OUTPUT_LEAF) if call.leaf == leaves => on_leaf(leaves - 1),
        (CountMistake::PlaceIsLeaf, NO_OUTPUT_LEAF) => place(call.leaf as u32),
        (CountMistake::NotCleared, NO_OUTPUT_LEAF) => {
            on_leaf(0).map(|first| Outcome { answer: outcome.answer, ..first })
        }
        (CountMistake::PlaceIsInputs, TOO_MANY_INPUTS) => place(inputs(&circuit) as u32),
        (CountMistake::LeafBeforeInputs, TOO_MANY_INPUTS) => {
            no_output_leaf(&circuit, call.leaf).map(Outcome::refused)
        }
        (CountMistake::ProductCut, TOO_MANY_INPUTS) => with_product_cut(&circuit, call.leaf),
        (_, ACCEPTED) => Some(wrong_counters(&circuit, call.leaf, outcome.clone(), mistake)),
        _ => None,
    };
    instead.unwrap_or(outcome)
}

/// Where the product cut to 32 bits is not over the limit, no input is found to
/// be counted; none where it is.
fn with_product_cut(circuit: &Circuit, leaf: usize) -> Option<Outcome> {
    let counts = circuit.counts(circuit.input());
    let product = counts.into_iter().map(u32::from).fold(1, u32::wrapping_mul);
    let none = Outcome { answer: Answer::accepted(0), counters: NONE };
    let refused = no_output_leaf(circuit, leaf).map(Outcome::refused);
    (product as usize <= MOST_INPUTS).then(|| refused.unwrap_or(none))
}

/// A mistake in the counters of an output leaf.
fn wrong_counters(
    circuit: &Circuit,
    leaf: usize,
    mut outcome: Outcome,
    mistake: CountMistake,
) -> Outcome {
    let counts = circuit.counts(circuit.input());
    let mut watch = Watch::nothing();
    let mut stepper = Stepper::<Right>::new(circuit, IN_FORCE, &mut watch);
    // The value for an input of one first leaf and others that are alike.
    let mut shown = |first: u8, others: u8| {
        let mut input = vec![others; counts.len()];
        input[0] = first;
        usize::from(stepper.look(&input)[leaf])
    };
    let all = inputs(circuit) as u32;
    let counters = &mut outcome.counters;
    match mistake {
        CountMistake::FirstForAll => *counters = only(shown(1, 1), all),
        CountMistake::FirstOfLeaf => {
            *counters = NONE;
            let with_each = all / u32::from(counts[0]);
            (1..=counts[0]).for_each(|first| counters[shown(first, 1)] += with_each);
        }
        CountMistake::UndefinedForAll => *counters = only(shown(0, 0), all),
        CountMistake::SettledOnce if shown(0, 0) != 0 => *counters = only(shown(0, 0), 1),
        CountMistake::ZeroDropped => counters[0] = 0,
        CountMistake::CounterCut => counters.iter_mut().for_each(|count| *count &= 0xffff),
        _ => {}
    }
    outcome
}

/// So many inputs give one value.
fn only(value: usize, inputs: u32) -> Counters {
    let mut counters = NONE;
    counters[value] = inputs;
    counters
}
