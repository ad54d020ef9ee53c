//! A new sheet for the same shift: its labelled delays take over what those of
//! the old sheet with the same labels hold.

use std::collections::HashMap;

use crate::accepted::Circuit;
use crate::answers::{Answer, LABEL_TWICE, NEW_SHEET_REFUSED, WRONG_NEXT_LENGTH};
use crate::records::{A, B, D, FLAT, KIND};
use crate::simulator::wrong_length;

/// What the call is handed: two sheets to read, and the length of a slice.
#[derive(Clone, Copy)]
pub struct Call<'a> {
    pub old: &'a [u8],
    pub new: &'a [u8],
    pub next_length: usize,
}

/// What the call gives. A slice that is none is left unaltered.
pub struct Outcome {
    pub answer: Answer,
    pub next: Option<Vec<u8>>,
}

/// Whether the values of one type are carried to another one, each of a circuit.
pub type Carries = fn(&Circuit, u16, &Circuit, u16) -> bool;

/// The new sheet with the values that are carried into it.
pub fn carry(call: &Call) -> Outcome {
    carry_by(same_shape, call)
}

/// The same, by a rule for the types whose values are carried.
pub fn carry_by(carries: Carries, call: &Call) -> Outcome {
    match judge(call) {
        Ok((old, new)) => {
            let next = Some(carried(carries, &old, &new, call.new));
            Outcome { answer: Answer::accepted(0), next }
        }
        Err(answer) => Outcome { answer, next: None },
    }
}

/// All codes in their order: 1 to 7 for the old sheet, 18, 19, 11.
fn judge(call: &Call) -> Result<(Circuit, Circuit), Answer> {
    let old = Circuit::read(call.old)?;
    let new = Circuit::read(call.new)
        .map_err(|answer| Answer { code: NEW_SHEET_REFUSED, place: u32::from(answer.code) })?;
    let faults = [
        label_twice(&old),
        label_twice(&new),
        wrong_length(WRONG_NEXT_LENGTH, call.next_length, call.new.len()),
    ];
    faults.into_iter().flatten().next().map_or(Ok((old, new)), Err)
}

/// A delay's label, if it has one.
fn label(circuit: &Circuit, delay: usize) -> Option<u16> {
    Some(circuit.records[delay][D]).filter(|&label| label != 0)
}

/// The delay with each label; the lowest, if there are several.
fn bearers(circuit: &Circuit) -> HashMap<u16, usize> {
    let mut bearers = HashMap::new();
    for delay in circuit.delays() {
        if let Some(label) = label(circuit, delay) {
            bearers.entry(label).or_insert(delay);
        }
    }
    bearers
}

/// Code 19: the lowest delay whose label a lower one bears.
fn label_twice(circuit: &Circuit) -> Option<Answer> {
    let bearers = bearers(circuit);
    let lower =
        |delay: &usize| label(circuit, *delay).is_some_and(|label| bearers[&label] < *delay);
    let place = circuit.delays().find(lower)? as u32;
    Some(Answer { code: LABEL_TWICE, place })
}

/// Whether two types have the same shape: pairs, and flats of equal counts, in
/// the same places.
pub fn same_shape(one: &Circuit, of: u16, other: &Circuit, as_of: u16) -> bool {
    let mut open = vec![(of, as_of)];
    while let Some((of, as_of)) = open.pop() {
        let (first, second) = (one.records[usize::from(of)], other.records[usize::from(as_of)]);
        let same = first[KIND] == second[KIND] && (first[KIND] != FLAT || first[A] == second[A]);
        if !same {
            return false;
        }
        if first[KIND] != FLAT {
            open.extend([(first[A], second[A]), (first[B], second[B])]);
        }
    }
    true
}

/// Whether two types have pairs in the same places.
pub fn same_pairs(one: &Circuit, of: u16, other: &Circuit, as_of: u16) -> bool {
    let (first, second) = (one.records[usize::from(of)], other.records[usize::from(as_of)]);
    first[KIND] == second[KIND]
        && (first[KIND] == FLAT
            || [A, B].into_iter().all(|part| same_pairs(one, first[part], other, second[part])))
}

/// For each delay of the new sheet that takes a value the delay of the old
/// sheet whose value it takes.
fn partners(carries: Carries, old: &Circuit, new: &Circuit) -> Vec<(usize, usize)> {
    let bearers = bearers(old);
    let partner = |delay: usize| {
        let found = bearers.get(&label(new, delay)?).copied()?;
        let (from, to) = (old.records[found][A], new.records[delay][A]);
        carries(old, from, new, to).then_some((delay, found))
    };
    new.delays().filter_map(partner).collect()
}

/// The new sheet, its delays with the values of their partners.
fn carried(carries: Carries, old: &Circuit, new: &Circuit, sheet: &[u8]) -> Vec<u8> {
    let mut held = new.leaves.clone();
    for (delay, partner) in partners(carries, old, new) {
        held[delay].clone_from(&old.leaves[partner]);
    }
    let mut next = sheet.to_vec();
    new.hold(&mut next, &held);
    next
}
