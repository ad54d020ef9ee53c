//! What was compared, and the quotas it has to meet.

use super::case::Case;
use super::counting::{inputs, Counters, MOST_INPUTS, TOO_MANY_INPUTS};
use super::products;
use crate::accepted::Circuit;
use crate::answers::{ILL_TYPED, NO_OUTPUT_LEAF, WRONG_LENGTH};
use crate::evaluator::Right;
use crate::frame::memory::PLACEMENTS;
use crate::frame::tally::{laid_out, of_codes, Quota};
use crate::layout::ORDERS;
use crate::one_cycle::tally::{FUZZED, LONGEST, SHAPES};
use crate::one_leaf::faults;
use crate::records::{DELAY, FEEDBACK, KIND};
use crate::rule::IN_FORCE;
use crate::stepper::Stepper;
use crate::watch::Watch;

pub const ACCEPTED_COUNTS: u64 = 20_000;
pub const PER_CODE: u64 = 1_000;
pub const PER_TWO_CODES: u64 = 120;
const PER_LAYOUT: u64 = 1_000;
const PER_PLACEMENT: u64 = 5_000;

pub const ACCEPTED_ONES: &str = "accepted counts";
pub const FIXED: &str = "fixed sheets, on each of their output leaves";
pub const MANY: &str = "over 1,024 inputs";
const MANY_VALUES: &str = "over 1,024 inputs, and two values or more";
const MANY_UNDEFINED: &str = "over 1,024 inputs, and counter 0 and another one above 0";
pub const MANY_FED_BACK: &str = "over 1,024 inputs and a feedback";
pub const ALL: &str = "65,536 inputs";
const ALL_ALIKE: &str = "65,536 inputs of one value";
const ONE_INPUT: &str = "one input";
const SINGLE: &str = "a leaf of one constructor beside others";
const UNDEFINED: &str = "counter 0 above 0";
const SOME_UNDEFINED: &str = "counter 0 above 0, and another one";
const ALIKE: &str = "one value of several inputs";
const SEVERAL: &str = "three values or more";
const GREAT: &str = "a value above 127";
const MOST: &str = "a value of 255";
const SETTLED: &str = "several inputs of one value, which the undefined input gives too";
const DELAYS: &str = "a delay";
const DELAYS_MOVE: &str = "a delay that moves with the first input";
const FEEDBACKS: &str = "a feedback";
const LEAF_ABOVE: &str = "an output leaf above 0";
const LAST_LEAF: &str = "the last of several output leaves";
const WIDE_INPUT: &str = "64 input leaves";
const WIDE_OUTPUT: &str = "64 output leaves";

/// The quotas of the named counts.
pub const QUOTAS: [(&str, u64); 38] = [
    (FIXED, 265),
    (MANY, 500),
    (MANY_VALUES, 200),
    (MANY_UNDEFINED, 50),
    (MANY_FED_BACK, 40),
    (ALL, 50),
    (ALL_ALIKE, 8),
    (ONE_INPUT, 500),
    (SINGLE, 1_000),
    (UNDEFINED, 2_000),
    (SOME_UNDEFINED, 1_000),
    (ALIKE, 1_000),
    (SEVERAL, 1_000),
    (GREAT, 200),
    (MOST, 50),
    (SETTLED, 1_000),
    (DELAYS, 1_000),
    (DELAYS_MOVE, 1_000),
    (FEEDBACKS, 1_000),
    (LEAF_ABOVE, 1_000),
    (LAST_LEAF, 1_000),
    (WIDE_INPUT, 50),
    (WIDE_OUTPUT, 20),
    (SHAPES, 10),
    (LONGEST, 40),
    (FUZZED, 5_000),
    (products::LOWEST, 200),
    (products::SLIGHTLY, 200),
    (products::TWO_TO_17, 200),
    (products::BY_2_TO_32, 200),
    (products::BY_2_TO_64, 200),
    (products::MOST, 200),
    (products::ANY, 200),
    (faults::AT_COUNT, 500),
    (faults::SOME_MORE, 500),
    (faults::TWO_TO_32, 500),
    (faults::LOW_HALF, 500),
    (faults::MOST, 500),
];

/// The named ways to break the rule of a code.
pub fn ways(code: u8) -> &'static [&'static str] {
    match code {
        TOO_MANY_INPUTS => &products::WAYS,
        NO_OUTPUT_LEAF => &faults::WAYS,
        _ => &[],
    }
}

/// The codes, the lowest first.
pub fn codes() -> impl Iterator<Item = u8> {
    (WRONG_LENGTH..=ILL_TYPED).chain([TOO_MANY_INPUTS, NO_OUTPUT_LEAF])
}

/// Two codes of which one is about the call: the lower one, the higher one.
pub fn two_codes() -> Vec<(u8, u8)> {
    let below = |high: u8| codes().take_while(move |low| *low < high).map(move |low| (low, high));
    [TOO_MANY_INPUTS, NO_OUTPUT_LEAF].into_iter().flat_map(below).collect()
}

/// What comes up in an accepted count that gives these counters.
pub fn came_up(case: &Case, counters: &Counters) -> Vec<(&'static str, bool)> {
    let Ok(circuit) = Circuit::read(&case.sheet) else { return Vec::new() };
    let inputs = inputs(&circuit);
    let counts = circuit.counts(circuit.input());
    let leaves = circuit.width(circuit.root());
    let has = |kind: u16| circuit.records.iter().any(|record| record[KIND] == kind);
    let values = counters.iter().filter(|&&counter| counter > 0).count();
    let alike = inputs > 1 && values == 1;
    let mut watch = Watch::nothing();
    let mut stepper = Stepper::<Right>::new(&circuit, IN_FORCE, &mut watch);
    let settled = stepper.look(&vec![0; counts.len()])[case.leaf] != 0;
    stepper.cycle(&vec![1; counts.len()]);
    let moves = stepper.next_sheet(&case.sheet) != case.sheet;
    vec![
        (MANY, inputs > 1_024),
        (MANY_VALUES, inputs > 1_024 && values > 1),
        (MANY_UNDEFINED, inputs > 1_024 && values > 1 && counters[0] > 0),
        (MANY_FED_BACK, inputs > 1_024 && has(FEEDBACK)),
        (ALL, inputs == MOST_INPUTS),
        (ALL_ALIKE, inputs == MOST_INPUTS && alike),
        (ONE_INPUT, inputs == 1),
        (SINGLE, inputs > 1 && counts.contains(&1)),
        (UNDEFINED, counters[0] > 0),
        (SOME_UNDEFINED, counters[0] > 0 && values > 1),
        (ALIKE, alike),
        (SEVERAL, values > 2),
        (GREAT, counters[128..].iter().any(|&counter| counter > 0)),
        (MOST, counters[255] > 0),
        (SETTLED, alike && settled),
        (DELAYS, has(DELAY)),
        (DELAYS_MOVE, moves),
        (FEEDBACKS, has(FEEDBACK)),
        (LEAF_ABOVE, case.leaf > 0),
        (LAST_LEAF, case.leaf > 0 && case.leaf + 1 == leaves),
        (WIDE_INPUT, counts.len() == 64),
        (WIDE_OUTPUT, leaves == 64),
    ]
}

/// Every quota.
pub fn quotas() -> Vec<Quota> {
    let of_code = |code: u8| Quota::new(format!("counts with code {code}"), PER_CODE);
    let mut quotas = vec![Quota::new(ACCEPTED_ONES, ACCEPTED_COUNTS)];
    quotas.extend(Quota::all(&QUOTAS));
    quotas.extend(codes().map(of_code));
    let both = |(low, high)| Quota::new(of_codes(low, high), PER_TWO_CODES);
    quotas.extend(two_codes().into_iter().map(both));
    quotas.extend(ORDERS.iter().map(|order| Quota::new(laid_out(order), PER_LAYOUT)));
    let placed = |name| Quota::new(format!("counts with slices {name}"), PER_PLACEMENT);
    quotas.extend(PLACEMENTS.map(placed));
    quotas
}
