//! Mistakes in the call, so that the comparison can be shown to find them: each
//! reading turned round. They replace a rule, or alter what the call is handed
//! or what it gives.

use super::estimator::{self, joined, Estimator};
use super::products::{of_products, part_by_part};
use super::remaining::{
    not_for_sets, not_one_cycle, remaining as right, remaining_by, unfit, wrong_input,
    wrong_output_length, Call, Check, Outcome, Rules, NOT_FOR_SETS, RULES,
};
use super::sets::{self, joined_first, Set, Sets};
use super::wrong_rules as wrong;
use crate::accepted::Circuit;
use crate::answers::{Answer, ACCEPTED, ILL_TYPED};
use crate::matching::Match;
use crate::records::read;
use crate::stimulus;

#[derive(Clone, Copy)]
pub enum PossibleMistake {
    /// A rule is another one.
    Ruled(Rules),
    /// What the call is handed or what it gives is altered.
    Around(Around),
}

#[derive(Clone, Copy, PartialEq, Eq, Debug)]
pub enum Around {
    /// An empty stimulus is taken for an undefined input.
    EmptyTaken,
    /// Code 22 is judged before code 7.
    SetsBeforeTypes,
    /// The place of 0 is the number of cycles.
    PlaceOfRun,
    /// A refusal fills the slice with 0.
    RefusalFills,
    /// A refusal by 22 fills the slice with 0.
    SetsRefusalFills,
    /// The counts are those of the input, again and again.
    CountsOfInput,
}

/// Every mistake and its name.
pub const MISTAKES: [(&str, PossibleMistake); 60] = [
    // Chains on a flat type: alternatives one by one, everywhere or in pair
    // patterns; the first alone; what all name; no "no", and no "undecided".
    ("alternatives-apart", flat(wrong::apart)),
    ("apart-in-pairs", pairs(wrong::apart_in_pairs)),
    ("first-alternative", flat(|possible, named| joined_first(possible, &named[..1]))),
    ("alternatives-in-common", flat(wrong::in_common)),
    ("several-undecided", flat(wrong::several_undecided)),
    ("some-named-is-yes", flat(wrong::some_named)),
    // Chains on a pair type: other readings, other tables; pairs.
    ("product-sets", pairs(of_products)),
    ("pairs-joined", pairs(part_by_part)),
    ("chain-as-pair", matched(sets::Rules { chain: wrong::all_of, ..sets::RULES })),
    ("chain-ends-undecided", matched(sets::Rules { chain: wrong::first_of, ..sets::RULES })),
    (
        "undecided-before-no",
        matched(sets::Rules { pair: wrong::undecided_before_no, ..sets::RULES }),
    ),
    // A whole type: undecided on a pair; names nothing, or not the last.
    ("whole-undecided", matched(sets::Rules { whole: wrong::whole_undecided, ..sets::RULES })),
    ("whole-names-none", matched(sets::Rules { named: |_| Set::NONE, ..sets::RULES })),
    ("whole-one-short", matched(sets::Rules { named: |n| Set::up_to(n - 1), ..sets::RULES })),
    // What leaves begin with: undefined as nothing, as all but the last, as the
    // first or with one too many; words that lose constructor 64, or all 64.
    ("undefined-empty", begun(|byte, _| undefined_as(byte, Set::NONE))),
    ("undefined-one-short", begun(|byte, n| undefined_as(byte, Set::up_to(n - 1)))),
    ("undefined-first", begun(|byte, _| undefined_as(byte, Set::only(1)))),
    ("undefined-one-more", begun(|byte, n| undefined_as(byte, Set::up_to(n + 1)))),
    ("without-64", begun(wrong::without_64)),
    ("none-of-64", begun(wrong::none_of_64)),
    ("constant-unknown", constant(|on, number| on.anything(on.type_of(number)))),
    ("constant-gap-empty", constant(|on, number| without_gaps(on.held(number)))),
    // A delay: anything, also where it has a label; what it delays, or either of
    // this and what it holds.
    ("delay-unknown", delay(|on, number| on.anything(on.type_of(number)))),
    ("labelled-unknown", delay(wrong::labelled_unknown)),
    ("delay-gap-empty", delay(|on, number| without_gaps(on.held(number)))),
    ("delay-is-part", delay(|on, number| on.delayed(number))),
    ("delay-or-part", delay(|on, number| joined(&on.held(number), &on.delayed(number)))),
    ("first-for-second", estimated(estimator::Rules { second: first_leaves, ..estimator::RULES })),
    // An IF: one branch, what both have in common or agree on; always both.
    ("undecided-then", choice(wrong::then_undecided)),
    ("undecided-else", choice(wrong::else_undecided)),
    ("undecided-in-common", choice(wrong::common_undecided)),
    ("undecided-agreed", choice(wrong::agreed_undecided)),
    ("always-joined", choice(wrong::always_joined)),
    ("branches-exchanged", choice(|said, then, other| estimator::chosen(said, other, then))),
    // 22: its limit, which records it is about, and its place.
    ("64-refused", unfit_by(wrong::above_63)),
    ("65-accepted", unfit_by(wrong::above_65)),
    ("feedbacks-accepted", unfit_by(wrong::flats_alone)),
    ("used-types-only", unfit_by(wrong::used_alone)),
    ("flats-first", unfit_by(wrong::flats_first)),
    ("feedbacks-first", unfit_by(wrong::feedbacks_first)),
    ("highest-record", unfit_by(wrong::highest)),
    ("sets-at-0", unfit_by(wrong::at_0)),
    // The order of the checks.
    ("sets-after-8", checked([not_one_cycle, not_for_sets, wrong_input, wrong_output_length])),
    ("sets-after-9", checked([not_one_cycle, wrong_input, not_for_sets, wrong_output_length])),
    ("sets-last", checked([not_one_cycle, wrong_input, wrong_output_length, not_for_sets])),
    ("nine-before-eight", checked([not_for_sets, wrong_input, not_one_cycle, wrong_output_length])),
    ("ten-before-nine", checked([not_for_sets, not_one_cycle, wrong_output_length, wrong_input])),
    ("sets-before-types", PossibleMistake::Around(Around::SetsBeforeTypes)),
    // Other stimuli and other slices.
    ("two-cycles-taken", cycles_by(wrong::not_two_cycles)),
    ("empty-taken", PossibleMistake::Around(Around::EmptyTaken)),
    ("input-leaves", length_by(wrong::not_input_leaves)),
    ("eight-bytes-a-leaf", length_by(wrong::not_words)),
    ("longer-taken", length_by(wrong::too_short)),
    // What is written.
    ("count-one-less", counted(|set| set.size().wrapping_sub(1))),
    ("alone-as-0", counted(|set| if set.size() == 1 { 0 } else { set.size() })),
    ("greatest-for-count", counted(|set| set.constructors().last().unwrap_or(0))),
    ("counts-of-input", PossibleMistake::Around(Around::CountsOfInput)),
    ("place-of-run", PossibleMistake::Around(Around::PlaceOfRun)),
    ("refusal-fills", PossibleMistake::Around(Around::RefusalFills)),
    ("sets-refusal-fills", PossibleMistake::Around(Around::SetsRefusalFills)),
];

const fn checked(checks: [Check; 4]) -> PossibleMistake {
    PossibleMistake::Ruled(Rules { checks, ..RULES })
}

/// Another check in the place of that of 22, of 8 and of 10.
const fn unfit_by(check: Check) -> PossibleMistake {
    checked([check, not_one_cycle, wrong_input, wrong_output_length])
}

const fn cycles_by(check: Check) -> PossibleMistake {
    checked([not_for_sets, check, wrong_input, wrong_output_length])
}

const fn length_by(check: Check) -> PossibleMistake {
    checked([not_for_sets, not_one_cycle, wrong_input, check])
}

const fn counted(count: fn(Set) -> u8) -> PossibleMistake {
    PossibleMistake::Ruled(Rules { count, ..RULES })
}

const fn estimated(estimator: estimator::Rules) -> PossibleMistake {
    PossibleMistake::Ruled(Rules { estimator, ..RULES })
}

const fn begun(begun: fn(u8, u8) -> Set) -> PossibleMistake {
    estimated(estimator::Rules { begun, ..estimator::RULES })
}

const fn constant(constant: fn(&mut Estimator, usize) -> Sets) -> PossibleMistake {
    estimated(estimator::Rules { constant, ..estimator::RULES })
}

const fn delay(delay: fn(&mut Estimator, usize) -> Sets) -> PossibleMistake {
    estimated(estimator::Rules { delay, ..estimator::RULES })
}

const fn choice(choice: fn(Match, Sets, Sets) -> Sets) -> PossibleMistake {
    estimated(estimator::Rules { choice, ..estimator::RULES })
}

const fn matched(sets: sets::Rules) -> PossibleMistake {
    estimated(estimator::Rules { sets, ..estimator::RULES })
}

const fn flat(flat: fn(Set, &[Set]) -> Match) -> PossibleMistake {
    matched(sets::Rules { flat, ..sets::RULES })
}

const fn pairs(pairs: fn(&sets::Rules, &Circuit, u16, &[Set]) -> Match) -> PossibleMistake {
    matched(sets::Rules { pairs, ..sets::RULES })
}

/// An undefined leaf may be any of a set.
fn undefined_as(byte: u8, set: Set) -> Set {
    match byte {
        0 => set,
        constructor => Set::only(constructor),
    }
}

/// Leaves that may be several constructors are none of them.
fn without_gaps(sets: Sets) -> Sets {
    let emptied = |set: Set| if set.size() > 1 { Set::NONE } else { set };
    sets.into_iter().map(emptied).collect()
}

fn first_leaves(mut whole: Sets, leaves: usize) -> Sets {
    whole.truncate(leaves);
    whole
}

/// The answer to a call, or what a mistake makes of it.
pub fn remaining(call: &Call, mistake: Option<PossibleMistake>) -> Outcome {
    match mistake {
        None => right(call),
        Some(PossibleMistake::Ruled(rules)) => remaining_by(&rules, call),
        Some(PossibleMistake::Around(around)) => wrong_around(call, around),
    }
}

/// A mistake in what the call is handed or in what it gives.
fn wrong_around(call: &Call, around: Around) -> Outcome {
    let outcome = right(call);
    let code = outcome.answer.code;
    let filled = || Outcome { counts: Some(vec![0; call.output_length]), ..outcome };
    match around {
        Around::RefusalFills if code != ACCEPTED => filled(),
        Around::SetsRefusalFills if code == NOT_FOR_SETS => filled(),
        Around::PlaceOfRun if code == ACCEPTED => {
            Outcome { answer: Answer::accepted(1), ..outcome }
        }
        Around::SetsBeforeTypes if code == ILL_TYPED => {
            let place = read(call.sheet).iter().position(unfit);
            let told = place.map(|place| Answer { code: NOT_FOR_SETS, place: place as u32 });
            told.map_or(outcome, Outcome::refused)
        }
        Around::EmptyTaken if call.stimulus.is_empty() => match Circuit::read(call.sheet) {
            Ok(circuit) => right(&Call { stimulus: &vec![0; stimulus::leaves(&circuit)], ..*call }),
            Err(_) => outcome,
        },
        Around::CountsOfInput if code == ACCEPTED => match Circuit::read(call.sheet) {
            Ok(circuit) => {
                let counts = circuit.counts(circuit.input());
                let leaves = call.stimulus.iter().zip(counts).cycle().take(call.output_length);
                let sizes = leaves.map(|(byte, count)| Set::begun(*byte, count).size());
                Outcome { counts: Some(sizes.collect()), ..outcome }
            }
            Err(_) => outcome,
        },
        _ => outcome,
    }
}
