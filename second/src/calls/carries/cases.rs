//! Calls of all kinds.

use super::case::Case;
use super::tally;
use crate::accepted::Circuit;
use crate::calls::runs::faults::break_sheet;
use crate::draft::Draft;
use crate::faults::category::Category;
use crate::generate::circuits::circuit;
use crate::generate::delays::{circuit_of_delays, delays, delays_like, repeat_label, Labelled};
use crate::generate::labels::{label_as, Labels};
use crate::generate::network::network;
use crate::generate::small::small;
use crate::layout::{record_count, sheet};
use crate::random::Random;
use crate::records::{MAX_RECORDS, RECORD_BYTES};
use crate::simulator;

/// A call with a next slice of the right length.
pub fn case(source: &str, old: Vec<u8>, new: Vec<u8>) -> Case {
    let next_length = new.len();
    Case { source: source.to_string(), old, new, next_length }
}

fn laid(delays: &[Labelled], random: &mut Random) -> Vec<u8> {
    let draft = circuit_of_delays(delays, random);
    sheet(&draft, random)
}

/// Two lists of delays with labels in common, none twice.
fn two_lists(random: &mut Random) -> [Vec<Labelled>; 2] {
    let labels = match random.below(4) {
        0 => Labels::None,
        1 => Labels::Some,
        _ => Labels::Distinct,
    };
    let old = delays(labels, random);
    let new = delays_like(&old, random);
    [old, new]
}

/// Two sheets of delays with labels in common, none twice.
pub fn sheets_of_delays(random: &mut Random) -> Case {
    let [old, new] = two_lists(random).map(|list| laid(&list, random));
    case("delays", old, new)
}

/// Any circuit with labels in one way; none if it is too large.
fn any_circuit(labels: Labels, random: &mut Random) -> Option<Draft> {
    let mut draft = match random.below(4) {
        0 => network(random),
        1 => circuit(random),
        _ => small(random),
    };
    label_as(&mut draft, labels, random);
    (record_count(&draft) <= MAX_RECORDS).then_some(draft)
}

/// Two circuits that have nothing in common but labels.
pub fn two_circuits(random: &mut Random) -> Option<Case> {
    let mut sheets = [Vec::new(), Vec::new()];
    for made in &mut sheets {
        let labels = if random.one_in(2) { Labels::Distinct } else { Labels::Some };
        *made = sheet(&any_circuit(labels, random)?, random);
    }
    let [old, new] = sheets;
    Some(case("two circuits", old, new))
}

/// A sheet after some cycles, and the sheet that it began as: each delay with
/// a label of its own.
pub fn running(random: &mut Random) -> Option<Case> {
    let start = sheet(&any_circuit(Labels::Distinct, random)?, random);
    let circuit = Circuit::read(&start).ok()?;
    let counts = circuit.counts(circuit.input()).repeat(random.range(1, 4));
    let stimulus: Vec<u8> =
        counts.iter().map(|&count| random.below(usize::from(count) + 1) as u8).collect();
    let output_length = simulator::ready(&start, &stimulus).ok()?.output_length;
    let (sheet, next_length) = (&start[..], start.len());
    let call = simulator::Call { sheet, stimulus: &stimulus, output_length, next_length };
    let next = simulator::run(&call).next?;
    Some(case(tally::RUNNING, next, start))
}

/// Labels twice: in the old sheet, in the new one, or in both.
pub fn twice(random: &mut Random) -> Option<(Case, &'static str)> {
    let mut lists = two_lists(random);
    let way = random.pick(&[tally::OLD_TWICE, tally::NEW_TWICE, tally::BOTH_TWICE])?;
    for (list, name) in lists.iter_mut().zip([tally::OLD_TWICE, tally::NEW_TWICE]) {
        if way == name || way == tally::BOTH_TWICE {
            for _ in 0..random.range(1, 3) {
                repeat_label(list, random).then_some(())?;
            }
        }
    }
    let [old, new] = lists.map(|list| laid(&list, random));
    Some((case(way, old, new), way))
}

/// A sheet with a fault of a code from 1 to 7; its delays have labels.
pub fn broken(code: u8, categories: &[Category], random: &mut Random) -> Option<(String, Vec<u8>)> {
    let draft = circuit(random);
    if draft.nodes.len() > 160 && !random.one_in(20) {
        return None;
    }
    break_sheet(&draft, code, categories, random)
}

/// Another length than the new sheet's, and the way it differs.
pub fn other_length(case: &Case, random: &mut Random) -> Option<(usize, &'static str)> {
    let needed = case.new.len();
    let any = random.range(1, needed);
    let by = random.pick(&[1, RECORD_BYTES, any])?;
    match random.below(4) {
        0 => Some((0, tally::NEXT_NONE)),
        1 if by < needed => Some((needed - by, tally::NEXT_SHORTER)),
        2 => Some((needed + by, tally::NEXT_LONGER)),
        _ if case.old.len() != needed => Some((case.old.len(), tally::NEXT_OF_OLD)),
        _ => None,
    }
}
