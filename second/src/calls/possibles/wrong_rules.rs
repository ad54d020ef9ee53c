//! Rules that are wrong: what mistakes put in the place of the right ones.

use super::estimator::{joined, Estimator};
use super::remaining::{unfit, Call, MOST_CONSTRUCTORS, NOT_FOR_SETS};
use super::sets::{any_of, joined_first, one_by_one, Rules, Set, Sets};
use crate::accepted::Circuit;
use crate::answers::{Answer, WRONG_OUTPUT_LENGTH};
use crate::matching::Match;
use crate::records::{Record, A, B, FEEDBACK, FLAT, KIND, PAIR_TYPE};
use crate::simulator::wrong_length;
use crate::stimulus;

// Chains on a flat type.

/// Each alternative is asked by itself.
pub fn apart(possible: Set, named: &[Set]) -> Match {
    let said = named.iter().map(|named| joined_first(possible, &[*named]));
    any_of(&said.collect::<Vec<Match>>())
}

/// The same in the parts of pair patterns alone.
pub fn apart_in_pairs(rules: &Rules, circuit: &Circuit, first: u16, tested: &[Set]) -> Match {
    one_by_one(&Rules { flat: apart, ..*rules }, circuit, first, tested)
}

/// The alternatives name what all of them name.
pub fn in_common(possible: Set, named: &[Set]) -> Match {
    let common = named.iter().copied().reduce(Set::common);
    joined_first(possible, &[common.unwrap_or(Set::NONE)])
}

/// Several possible constructors are undecided, though none of them is named.
pub fn several_undecided(possible: Set, named: &[Set]) -> Match {
    match joined_first(possible, named) {
        Match::No if possible.size() > 1 => Match::Undecided,
        said => said,
    }
}

/// One possible constructor that is named is enough for yes.
pub fn some_named(possible: Set, named: &[Set]) -> Match {
    match joined_first(possible, named) {
        Match::Undecided => Match::Yes,
        said => said,
    }
}

// Chains on a pair type, and pairs.

/// A chain by the rule of pairs.
pub fn all_of(said: &[Match]) -> Match {
    if said.contains(&Match::No) {
        Match::No
    } else if said.contains(&Match::Undecided) {
        Match::Undecided
    } else {
        Match::Yes
    }
}

/// A chain ends at the first alternative that does not say no.
pub fn first_of(said: &[Match]) -> Match {
    said.iter().copied().find(|said| *said != Match::No).unwrap_or(Match::No)
}

/// A whole type is undecided where a leaf is.
pub fn whole_undecided(tested: &[Set]) -> Match {
    match tested.iter().all(|set| set.size() == 1) {
        true => Match::Yes,
        false => Match::Undecided,
    }
}

/// A pair is undecided where a part is, though the other one says no.
pub fn undecided_before_no(first: Match, second: Match) -> Match {
    match (first, second) {
        (Match::Undecided, _) | (_, Match::Undecided) => Match::Undecided,
        (Match::Yes, Match::Yes) => Match::Yes,
        _ => Match::No,
    }
}

// Values.

/// What a leaf may be, without the constructor 64: its bit falls out of a word
/// that has bit c for constructor c.
pub fn without_64(byte: u8, count: u8) -> Set {
    Set::begun(byte, count).common(Set::up_to(63))
}

/// All of 64 constructors is none of them: 2^64 - 1 with 2^64 cut to 0.
pub fn none_of_64(byte: u8, count: u8) -> Set {
    match (byte, count) {
        (0, 64) => Set::NONE,
        _ => Set::begun(byte, count),
    }
}

/// A delay with a label may hold anything.
pub fn labelled_unknown(on: &mut Estimator, number: usize) -> Sets {
    match on.label(number) {
        0 => on.held(number),
        _ => on.anything(on.type_of(number)),
    }
}

/// An undecided IF gives what one function makes of both branches' leaves.
fn undecided_by(said: Match, then: Sets, other: Sets, of: fn(Set, Set) -> Set) -> Sets {
    match said {
        Match::Yes => then,
        Match::No => other,
        Match::Undecided => then.into_iter().zip(other).map(|(x, y)| of(x, y)).collect(),
    }
}

pub fn then_undecided(said: Match, then: Sets, other: Sets) -> Sets {
    undecided_by(said, then, other, |then, _| then)
}

pub fn else_undecided(said: Match, then: Sets, other: Sets) -> Sets {
    undecided_by(said, then, other, |_, other| other)
}

pub fn common_undecided(said: Match, then: Sets, other: Sets) -> Sets {
    undecided_by(said, then, other, Set::common)
}

/// Leaves that differ may be anything of up to 64 constructors.
pub fn agreed_undecided(said: Match, then: Sets, other: Sets) -> Sets {
    let agreed = |then: Set, other: Set| if then == other { then } else { Set::up_to(64) };
    undecided_by(said, then, other, agreed)
}

/// Both branches are joined whatever the pattern says.
pub fn always_joined(_: Match, then: Sets, other: Sets) -> Sets {
    joined(&then, &other)
}

// Code 22.

/// The lowest record of some.
fn lowest(circuit: &Circuit, unfit: fn(&Record) -> bool) -> Option<Answer> {
    told(circuit.records.iter().position(unfit))
}

fn told(place: Option<usize>) -> Option<Answer> {
    place.map(|place| Answer { code: NOT_FOR_SETS, place: place as u32 })
}

fn flat_above(record: &Record, most: u16) -> bool {
    record[KIND] == FLAT && record[A] > most
}

fn feedback(record: &Record) -> bool {
    record[KIND] == FEEDBACK
}

pub fn above_63(circuit: &Circuit, _: &Call) -> Option<Answer> {
    lowest(circuit, |record| feedback(record) || flat_above(record, MOST_CONSTRUCTORS - 1))
}

pub fn above_65(circuit: &Circuit, _: &Call) -> Option<Answer> {
    lowest(circuit, |record| feedback(record) || flat_above(record, MOST_CONSTRUCTORS + 1))
}

pub fn flats_alone(circuit: &Circuit, _: &Call) -> Option<Answer> {
    lowest(circuit, |record| flat_above(record, MOST_CONSTRUCTORS))
}

pub fn flats_first(circuit: &Circuit, call: &Call) -> Option<Answer> {
    flats_alone(circuit, call).or_else(|| lowest(circuit, feedback))
}

pub fn feedbacks_first(circuit: &Circuit, call: &Call) -> Option<Answer> {
    lowest(circuit, feedback).or_else(|| flats_alone(circuit, call))
}

pub fn highest(circuit: &Circuit, _: &Call) -> Option<Answer> {
    told(circuit.records.iter().rposition(unfit))
}

pub fn at_0(circuit: &Circuit, _: &Call) -> Option<Answer> {
    told(circuit.records.iter().any(unfit).then_some(0))
}

/// Flat types that no value has do not count.
pub fn used_alone(circuit: &Circuit, _: &Call) -> Option<Answer> {
    let used = used_types(circuit);
    let unfit = |number: &usize| {
        let record = &circuit.records[*number];
        feedback(record) || flat_above(record, MOST_CONSTRUCTORS) && used[*number]
    };
    told((0..circuit.records.len()).find(unfit))
}

/// The types of the input, of expressions, of patterns and of feedbacks' names,
/// and their parts.
fn used_types(circuit: &Circuit) -> Vec<bool> {
    let mut used = vec![false; circuit.records.len()];
    let mut open = vec![circuit.input()];
    for (number, record) in circuit.records.iter().enumerate() {
        match record[KIND] {
            FLAT | PAIR_TYPE => {}
            FEEDBACK => open.extend([record[A], circuit.typed.types[number]]),
            _ => open.push(circuit.typed.types[number]),
        }
    }
    while let Some(of) = open.pop() {
        let record = circuit.records[usize::from(of)];
        if !std::mem::replace(&mut used[usize::from(of)], true) && record[KIND] == PAIR_TYPE {
            open.extend([record[A], record[B]]);
        }
    }
    used
}

// Codes 8 and 10.

/// Two cycles are taken too.
pub fn not_two_cycles(circuit: &Circuit, call: &Call) -> Option<Answer> {
    let leaves = stimulus::leaves(circuit);
    let taken = call.stimulus.len() == 2 * leaves;
    if taken {
        None
    } else {
        stimulus::not_one_cycle(circuit, call.stimulus)
    }
}

/// The slice is to be as long as the input has leaves.
pub fn not_input_leaves(circuit: &Circuit, call: &Call) -> Option<Answer> {
    wrong_length(WRONG_OUTPUT_LENGTH, call.output_length, stimulus::leaves(circuit))
}

/// The slice is to have eight bytes for each leaf.
pub fn not_words(circuit: &Circuit, call: &Call) -> Option<Answer> {
    let leaves = circuit.width(circuit.root());
    wrong_length(WRONG_OUTPUT_LENGTH, call.output_length, 8 * leaves)
}

/// A slice that is too long is taken too.
pub fn too_short(circuit: &Circuit, call: &Call) -> Option<Answer> {
    let leaves = circuit.width(circuit.root());
    wrong_length(WRONG_OUTPUT_LENGTH, call.output_length.min(leaves), leaves)
}
