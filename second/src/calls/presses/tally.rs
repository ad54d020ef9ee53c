//! What was compared, and the quotas it has to meet.

use super::case::Case;
use super::press::Change;
use crate::accepted::Circuit;
use crate::answers::{NO_OUTPUT_LEAF, WRONG_INPUT, WRONG_LENGTH, WRONG_STIMULUS};
use crate::evaluator::Right;
use crate::frame::memory::PLACEMENTS;
use crate::frame::tally::{laid_out, of_codes, Quota};
use crate::layout::ORDERS;
use crate::one_cycle::tally::{
    ways as ways_of_stimulus, ABOVE, BENCH, EMPTY, FUZZED, LONGEST, MORE, NOT_WHOLE, OVER, PART,
    SHAPES, SOME_ABOVE, TWO,
};
use crate::one_leaf::faults::{AT_COUNT, LOW_HALF, MOST, SOME_MORE, TWO_TO_32, WAYS};
use crate::records::{FEEDBACK, KIND};
use crate::rule::IN_FORCE;
use crate::stepper::Stepper;
use crate::watch::Watch;

pub const ACCEPTED_PRESSES: u64 = 50_000;
pub const PER_CODE: u64 = 1_000;
pub const PER_TWO_CODES: u64 = 120;
const PER_LAYOUT: u64 = 2_000;
const PER_PLACEMENT: u64 = 10_000;

pub const ACCEPTED_ONES: &str = "accepted presses";
const FOUND: &str = "found";
const NONE: &str = "none found";
const NO_CHANGES: &str = "none found, as no input leaf has another constructor";
const UNDEFINED: &str = "an undefined leaf in the input";
const UNDEFINED_FOUND: &str = "found at an undefined input leaf";
const LEAF_ABOVE: &str = "found at an input leaf above 0";
const LAST_LEAF: &str = "found at the last of several input leaves";
const CONSTRUCTOR_ABOVE: &str = "found with a constructor above 1";
const NOT_THE_FIRST: &str = "found where a lower constructor of that leaf alters nothing";
const GREAT: &str = "found with a constructor above 127";
const FROM_UNDEFINED: &str = "found, the output leaf altered from undefined";
const TO_UNDEFINED: &str = "found, the output leaf altered to undefined";
const DEFINED_BOTH: &str = "found, the output leaf altered from one value to another";
const OUTPUT_ABOVE: &str = "found for an output leaf above 0";
const NONE_ABOVE: &str = "none found for an output leaf above 0";
const DELAYS_MOVE: &str = "a delay whose held value differs from the next one";
const FEEDBACKS: &str = "found on a sheet with a feedback";
const WIDE_INPUT: &str = "64 input leaves";
const WIDE_OUTPUT: &str = "64 output leaves";

/// The quotas of the named counts.
pub const QUOTAS: [(&str, u64); 36] = [
    (FOUND, 5_000),
    (NONE, 5_000),
    (NO_CHANGES, 1_000),
    (UNDEFINED, 1_000),
    (UNDEFINED_FOUND, 1_000),
    (LEAF_ABOVE, 1_000),
    (LAST_LEAF, 1_000),
    (CONSTRUCTOR_ABOVE, 1_000),
    (NOT_THE_FIRST, 1_000),
    (GREAT, 100),
    (FROM_UNDEFINED, 1_000),
    (TO_UNDEFINED, 1_000),
    (DEFINED_BOTH, 1_000),
    (OUTPUT_ABOVE, 1_000),
    (NONE_ABOVE, 1_000),
    (DELAYS_MOVE, 5_000),
    (FEEDBACKS, 1_000),
    (WIDE_INPUT, 50),
    (WIDE_OUTPUT, 50),
    (BENCH, 200),
    (SHAPES, 20),
    (LONGEST, 40),
    (FUZZED, 5_000),
    (EMPTY, 1_000),
    (PART, 500),
    (TWO, 1_000),
    (MORE, 500),
    (NOT_WHOLE, 500),
    (OVER, 500),
    (ABOVE, 1_000),
    (SOME_ABOVE, 500),
    (AT_COUNT, 500),
    (SOME_MORE, 500),
    (TWO_TO_32, 500),
    (LOW_HALF, 500),
    (MOST, 500),
];

/// The named ways to break the rule of a code from 8 on.
pub fn ways(code: u8) -> &'static [&'static str] {
    match code {
        NO_OUTPUT_LEAF => &WAYS,
        _ => ways_of_stimulus(code),
    }
}

/// The codes, the lowest first.
pub fn codes() -> impl Iterator<Item = u8> {
    (WRONG_LENGTH..=WRONG_INPUT).chain([NO_OUTPUT_LEAF])
}

/// Two codes of which one is about the call: the lower one, the higher one.
pub fn two_codes() -> Vec<(u8, u8)> {
    let below = |high: u8| codes().take_while(move |low| *low < high).map(move |low| (low, high));
    [WRONG_STIMULUS, WRONG_INPUT, NO_OUTPUT_LEAF].into_iter().flat_map(below).collect()
}

/// What comes up in an accepted press that gives this change, or none.
pub fn counts(case: &Case, change: Option<Change>) -> Vec<(&'static str, bool)> {
    let Ok(circuit) = Circuit::read(&case.sheet) else { return Vec::new() };
    let mut watch = Watch::nothing();
    let mut stepper = Stepper::<Right>::new(&circuit, IN_FORCE, &mut watch);
    let input = &case.stimulus;
    let outputs = stepper.look(input);
    let counts = circuit.counts(circuit.input());
    let feedback = circuit.records.iter().any(|record| record[KIND] == FEEDBACK);
    let mut came_up = vec![
        (FOUND, change.is_some()),
        (NONE, change.is_none()),
        (UNDEFINED, input.contains(&0)),
        (NONE_ABOVE, change.is_none() && case.leaf > 0),
        (NO_CHANGES, input.iter().zip(&counts).all(|two| two == (&1, &1))),
        (FEEDBACKS, change.is_some() && feedback),
        (WIDE_INPUT, input.len() == 64),
        (WIDE_OUTPUT, outputs.len() == 64),
    ];
    if let Some(Change { leaf, constructor }) = change {
        let mut changed = input.clone();
        changed[leaf] = constructor;
        let (before, after) = (outputs[case.leaf], stepper.look(&changed)[case.leaf]);
        let lowest = if input[leaf] == 1 { 2 } else { 1 };
        came_up.extend([
            (UNDEFINED_FOUND, input[leaf] == 0),
            (LEAF_ABOVE, leaf > 0),
            (LAST_LEAF, leaf > 0 && leaf + 1 == input.len()),
            (CONSTRUCTOR_ABOVE, constructor > 1),
            (NOT_THE_FIRST, constructor > lowest),
            (GREAT, constructor > 127),
            (FROM_UNDEFINED, before == 0),
            (TO_UNDEFINED, after == 0),
            (DEFINED_BOTH, before != 0 && after != 0),
            (OUTPUT_ABOVE, case.leaf > 0),
        ]);
    }
    stepper.cycle(input);
    came_up.push((DELAYS_MOVE, stepper.next_sheet(&case.sheet) != case.sheet));
    came_up
}

/// Every quota.
pub fn quotas() -> Vec<Quota> {
    let of_code = |code: u8| Quota::new(format!("presses with code {code}"), PER_CODE);
    let mut quotas = vec![Quota::new(ACCEPTED_ONES, ACCEPTED_PRESSES)];
    quotas.extend(Quota::all(&QUOTAS));
    quotas.extend(codes().map(of_code));
    let both = |(low, high)| Quota::new(of_codes(low, high), PER_TWO_CODES);
    quotas.extend(two_codes().into_iter().map(both));
    quotas.extend(ORDERS.iter().map(|order| Quota::new(laid_out(order), PER_LAYOUT)));
    let placed = |name| Quota::new(format!("presses with slices {name}"), PER_PLACEMENT);
    quotas.extend(PLACEMENTS.map(placed));
    quotas
}
