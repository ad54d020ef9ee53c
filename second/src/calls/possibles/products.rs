//! Two other readings of a chain of pair patterns, which are not the rule: the
//! product sets of source document 000, and alternatives joined part by part.

use super::sets::{alternatives, joined_first, named, on_flat_type, one_by_one, Rules, Set};
use crate::accepted::Circuit;
use crate::matching::{chain, Match};
use crate::records::{A, B, KIND, WHOLE};
use crate::values::Value;

/// Product sets are looked at where they have at most so many values.
const MOST_VALUES: usize = 64;

/// All values of which each leaf is in its set; none if there are too many.
fn values_of(sets: &[Set]) -> Option<Vec<Value>> {
    let many = |values: usize, set: &Set| values.saturating_mul(usize::from(set.size()));
    if sets.iter().fold(1, many) > MOST_VALUES {
        return None;
    }
    Some(sets.iter().fold(vec![Value::new()], |shorter, set| {
        let longer = |value: &Value| {
            let value = value.clone();
            set.constructors().map(move |leaf| [value.as_slice(), &[leaf]].concat())
        };
        shorter.iter().flat_map(longer).collect()
    }))
}

/// Yes if every value of the product of the tested sets matches, no if none
/// does. By the rule where there are too many.
pub fn of_products(rules: &Rules, circuit: &Circuit, first: u16, tested: &[Set]) -> Match {
    let Some(values) = values_of(tested) else {
        return one_by_one(rules, circuit, first, tested);
    };
    let said = |wanted: Match| values.iter().all(|value| chain(circuit, first, value) == wanted);
    if said(Match::Yes) {
        Match::Yes
    } else if said(Match::No) {
        Match::No
    } else {
        Match::Undecided
    }
}

/// The first parts of all alternatives are one chain, and the second parts one.
pub fn part_by_part(rules: &Rules, circuit: &Circuit, first: u16, tested: &[Set]) -> Match {
    let patterns: Vec<u16> = alternatives(circuit, first).collect();
    joined_parts(rules, circuit, &patterns, tested)
}

fn joined_parts(rules: &Rules, circuit: &Circuit, patterns: &[u16], tested: &[Set]) -> Match {
    let record = |pattern: u16| &circuit.records[usize::from(pattern)];
    if on_flat_type(circuit, patterns[0]) {
        let named = patterns.iter().map(|pattern| named(rules, circuit, *pattern));
        return joined_first(tested[0], &named.collect::<Vec<Set>>());
    }
    if patterns.iter().any(|pattern| record(*pattern)[KIND] == WHOLE) {
        return Match::Yes;
    }
    let part = |word: usize| -> Vec<u16> {
        patterns.iter().flat_map(|p| alternatives(circuit, record(*p)[word])).collect()
    };
    let (first, second) = tested.split_at(circuit.width(usize::from(record(patterns[0])[A])));
    let first = joined_parts(rules, circuit, &part(A), first);
    let second = joined_parts(rules, circuit, &part(B), second);
    (rules.pair)(first, second)
}
