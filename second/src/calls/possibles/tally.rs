//! What was compared, and the quotas it has to meet.

use super::chains::{chains, Chain};
use super::estimator::estimate;
use super::fillings::Fillable;
use super::fitting;
use super::remaining::NOT_FOR_SETS;
use super::sets::Set;
use crate::accepted::Circuit;
use crate::answers::{ILL_TYPED, WRONG_INPUT, WRONG_LENGTH, WRONG_OUTPUT_LENGTH, WRONG_STIMULUS};
use crate::evaluator::Right;
use crate::frame::memory::PLACEMENTS;
use crate::frame::tally::{laid_out, of_codes, Quota};
use crate::layout::ORDERS;
use crate::matching::Match;
use crate::one_cycle::kind::Case;
use crate::one_cycle::tally as one_cycle;
use crate::records::{A, CONSTANT, DELAY, FLAT, KIND};
use crate::rule::IN_FORCE;
use crate::stepper::Stepper;
use crate::structure::choices_on;
use crate::watch::Watch;

pub const ACCEPTED_POSSIBLES: u64 = 50_000;
pub const PER_CODE: u64 = 1_000;
const PER_TWO_CODES: u64 = 120;
const PER_LAYOUT: u64 = 2_000;
const PER_PLACEMENT: u64 = 10_000;

pub const ACCEPTED_ONES: &str = "accepted possibles";
const UNDECIDED: &str = "an undecided IF";
const YES_TOGETHER: &str = "a flat chain, yes on an undefined leaf by several alternatives";
const SOME_YES: &str = "a flat chain, yes on two constructors or more but not all";
const SOME_NO: &str = "a flat chain, no on two constructors or more but not all";
const SOME_UNDECIDED: &str = "a flat chain, undecided on two constructors or more but not all";
const ON_PAIRS: &str = "an undecided chain of pair patterns";
const PRODUCTS: &str = "a chain on which product sets say something else";
const JOINED_PARTS: &str = "a chain on which joined parts say something else";
const INSIDE: &str = "a chain inside a pair pattern";
const INSIDE_TOGETHER: &str = "a chain inside a pair pattern, yes by several alternatives";
const WHOLE_PAIR: &str = "a whole type among the alternatives of a pair";
const SHARED: &str = "a pattern that several IFs name";
const SHARED_APART: &str = "a pattern that says two things at two IFs";
const CONSTANT_GAP: &str = "a constant with an undefined leaf";
const DELAY_GAP: &str = "a delay with an undefined leaf";
const BOTH_GAPS: &str = "a constant and a delay with undefined leaves";
const DELAYS_MOVE: &str = "a delay whose held value differs from the next one";
const OF_64: &str = "an output leaf with all of 64 constructors";
const SOME: &str = "an output leaf with two constructors or more but not all";
const ALONE: &str = "an output leaf that is alone in its set and undefined in the cycle";
const SINGLE: &str = "an undefined output leaf of one constructor";
const ALL_DEFINED: &str = "no undefined leaf in input, constants and delays";
const FLAT_64: &str = "a flat type of 64 constructors";
const OTHER_LEAVES: &str = "other numbers of input and output leaves";
const WIDE: &str = "64 output leaves";
pub const FILLED: &str = "sheets with all ways of filling tried";
pub const FILLED_MANY: &str = "sheets with over 256 ways of filling tried";
pub const FILLED_HELD: &str = "such sheets with undefined constants or delays";
pub const AT_FEEDBACK: &str = "22: told at a feedback below a flat type above 64";
pub const AT_FLAT: &str = "22: told at a flat type above 64 below a feedback";

/// The quotas of the named counts that this call has of its own.
pub const QUOTAS: [(&str, u64); 35] = [
    (UNDECIDED, 2_000),
    (YES_TOGETHER, 2_000),
    (SOME_YES, 500),
    (SOME_NO, 500),
    (SOME_UNDECIDED, 500),
    (ON_PAIRS, 2_000),
    (PRODUCTS, 1_000),
    (JOINED_PARTS, 1_000),
    (INSIDE, 2_000),
    (INSIDE_TOGETHER, 1_000),
    (WHOLE_PAIR, 2_000),
    (SHARED, 2_000),
    (SHARED_APART, 500),
    (CONSTANT_GAP, 2_000),
    (DELAY_GAP, 2_000),
    (BOTH_GAPS, 2_000),
    (DELAYS_MOVE, 2_000),
    (OF_64, 2_000),
    (SOME, 2_000),
    (ALONE, 2_000),
    (SINGLE, 500),
    (ALL_DEFINED, 500),
    (FLAT_64, 2_000),
    (OTHER_LEAVES, 10_000),
    (WIDE, 200),
    (FILLED, 800),
    (FILLED_MANY, 80),
    (FILLED_HELD, 400),
    (AT_FEEDBACK, 100),
    (AT_FLAT, 100),
    (fitting::FEEDBACKS, 1_000),
    (fitting::JUST_ABOVE, 1_000),
    (fitting::ABOVE, 500),
    (fitting::UNUSED, 500),
    (fitting::BOTH, 500),
];

/// The codes of the call, in the order of its checks.
pub fn codes() -> impl Iterator<Item = u8> {
    let of_call = [NOT_FOR_SETS, WRONG_STIMULUS, WRONG_INPUT, WRONG_OUTPUT_LENGTH];
    (WRONG_LENGTH..=ILL_TYPED).chain(of_call)
}

/// Two codes of which one is about the call: the one that is judged first, the
/// other one.
pub fn two_codes() -> Vec<(u8, u8)> {
    let later = codes().filter(|code| *code > ILL_TYPED);
    let before = |late: u8| codes().take_while(move |code| *code != late).map(move |e| (e, late));
    later.flat_map(before).collect()
}

/// How many calls with faults of two codes there are to be, of which the first
/// is judged first. That 22 comes before 8 is this call's own order.
pub fn per_two_codes(first: u8) -> u64 {
    match first {
        NOT_FOR_SETS => PER_CODE,
        _ => PER_TWO_CODES,
    }
}

/// The named ways to break the rule of a code.
pub fn ways(code: u8) -> &'static [&'static str] {
    match code {
        WRONG_LENGTH..=ILL_TYPED => &[],
        NOT_FOR_SETS => &fitting::WAYS,
        _ => one_cycle::ways(code),
    }
}

/// What comes up in an accepted call.
pub fn came_up(case: &Case) -> Vec<(&'static str, bool)> {
    let Ok(circuit) = Circuit::read(&case.sheet) else { return Vec::new() };
    let mut came_up = in_patterns(&circuit, &chains(&circuit, &case.stimulus));
    came_up.extend(in_leaves(&circuit, case));
    came_up.extend(in_outputs(&circuit, case));
    came_up
}

fn in_patterns(circuit: &Circuit, chains: &[Chain]) -> Vec<(&'static str, bool)> {
    let any = |holds: &dyn Fn(&Chain) -> bool| chains.iter().any(holds);
    let on_some = |said: Match| any(&|chain| chain.is_of_some() && chain.said == said);
    let mut own: Vec<(u16, bool, bool)> = chains
        .iter()
        .filter(|chain| !chain.inside)
        .map(|chain| (chain.first, chain.said == Match::Yes, chain.said == Match::No))
        .collect();
    own.sort_unstable();
    own.dedup();
    vec![
        (UNDECIDED, any(&|chain| !chain.inside && chain.said == Match::Undecided)),
        (YES_TOGETHER, any(&|chain| chain.is_of_undefined() && chain.is_yes_together())),
        (SOME_YES, on_some(Match::Yes)),
        (SOME_NO, on_some(Match::No)),
        (SOME_UNDECIDED, on_some(Match::Undecided)),
        (ON_PAIRS, any(&|chain| chain.is_undecided_on_pairs())),
        (PRODUCTS, any(&|chain| chain.differs_from_products())),
        (JOINED_PARTS, any(&|chain| chain.differs_from_joined_parts())),
        (INSIDE, any(&|chain| chain.inside && chain.has_several())),
        (INSIDE_TOGETHER, any(&|chain| chain.inside && chain.is_yes_together())),
        (WHOLE_PAIR, any(&|chain| chain.has_whole_pair())),
        (SHARED, choices_on(&circuit.records).into_iter().any(|count| count > 1)),
        (SHARED_APART, own.windows(2).any(|two| two[0].0 == two[1].0)),
    ]
}

fn in_leaves(circuit: &Circuit, case: &Case) -> Vec<(&'static str, bool)> {
    let undefined = |kind: u16| {
        let mut held = circuit.records.iter().zip(&circuit.leaves);
        held.any(|(record, value)| record[KIND] == kind && value.contains(&0))
    };
    let (in_constant, in_delay) = (undefined(CONSTANT), undefined(DELAY));
    let gaps = Fillable::of(&case.sheet, &case.stimulus).map_or(0, |call| call.gaps.len());
    let mut watch = Watch::nothing();
    let mut stepper = Stepper::<Right>::new(circuit, IN_FORCE, &mut watch);
    stepper.cycle(&case.stimulus);
    let of_64 = |record: &[u16; 6]| record[KIND] == FLAT && record[A] == 64;
    vec![
        (CONSTANT_GAP, in_constant),
        (DELAY_GAP, in_delay),
        (BOTH_GAPS, in_constant && in_delay),
        (ALL_DEFINED, gaps == 0),
        (DELAYS_MOVE, stepper.next_sheet(&case.sheet) != case.sheet),
        (FLAT_64, circuit.records.iter().any(of_64)),
    ]
}

fn in_outputs(circuit: &Circuit, case: &Case) -> Vec<(&'static str, bool)> {
    let mut watch = Watch::nothing();
    let outputs = Stepper::<Right>::new(circuit, IN_FORCE, &mut watch).look(&case.stimulus);
    let counts = circuit.counts(circuit.typed.output);
    let sets = estimate(circuit, &case.stimulus);
    let leaves: Vec<(u8, u8, Set)> =
        outputs.iter().zip(counts).zip(sets).map(|((leaf, n), set)| (*leaf, n, set)).collect();
    let any = |holds: fn(u8, u8, u8) -> bool| {
        leaves.iter().any(|(leaf, count, set)| holds(*leaf, *count, set.size()))
    };
    vec![
        (OF_64, any(|_, _, size| size == 64)),
        (SOME, any(|_, count, size| (2..count).contains(&size))),
        (ALONE, any(|leaf, count, size| leaf == 0 && count > 1 && size == 1)),
        (SINGLE, any(|leaf, count, _| leaf == 0 && count == 1)),
        (OTHER_LEAVES, outputs.len() != case.stimulus.len()),
        (WIDE, outputs.len() == 64),
    ]
}

/// Every quota.
pub fn quotas() -> Vec<Quota> {
    let of_code = |code: u8| Quota::new(format!("possibles with code {code}"), PER_CODE);
    let mut quotas = vec![Quota::new(ACCEPTED_ONES, ACCEPTED_POSSIBLES)];
    quotas.extend(Quota::all(&QUOTAS));
    quotas.extend(Quota::all(&one_cycle::QUOTAS));
    quotas.extend(codes().map(of_code));
    let both = |(first, other)| Quota::new(of_codes(first, other), per_two_codes(first));
    quotas.extend(two_codes().into_iter().map(both));
    quotas.extend(ORDERS.iter().map(|order| Quota::new(laid_out(order), PER_LAYOUT)));
    let placed = |name| Quota::new(format!("possibles with slices {name}"), PER_PLACEMENT);
    quotas.extend(PLACEMENTS.map(placed));
    quotas
}
