//! Patterns as people read them.

use second::records::{A, B, CONSTRUCTOR, D, KIND, NEXT, PAIR_PATTERN, WHOLE};

use crate::circuit::Circuit;
use crate::layout::Node;

/// An alternative as the text has it; of a sheet by its numbers.
pub fn alternative(circuit: &Circuit, record: usize) -> String {
    if let Some(layout) = &circuit.layout {
        if let Some(Node::Alternative(number)) = layout.nodes.get(record) {
            let letters = circuit.source.letters(layout.places.alternatives[*number].whole);
            let mut words = letters.split_whitespace().collect::<Vec<_>>().join(" ");
            for (with, without) in [("( ", "("), (" )", ")"), (" ,", ",")] {
                words = words.replace(with, without);
            }
            return words;
        }
    }
    one(circuit, record)
}

/// An alternative by the records of a sheet.
fn one(circuit: &Circuit, number: usize) -> String {
    let record = circuit.records[number];
    let types = circuit.types();
    match record[KIND] {
        WHOLE => types.label(usize::from(record[A])).replace('`', ""),
        CONSTRUCTOR => types.leaf(usize::from(record[A]), record[B] as u8),
        PAIR_PATTERN => {
            let (first, second) = (chain(circuit, record[A]), chain(circuit, record[B]));
            format!("({first}, {second})")
        }
        _ => format!("record {number}"),
    }
}

/// The alternatives of a chain.
pub fn chain(circuit: &Circuit, first: u16) -> String {
    let mut shown = Vec::new();
    let mut next = usize::from(first);
    while next != 0 {
        shown.push(one(circuit, next));
        next = usize::from(circuit.records[next][NEXT]);
    }
    shown.join(" | ")
}

/// The pattern of an IF.
pub fn pattern(circuit: &Circuit, choice: usize) -> String {
    chain(circuit, circuit.records[choice][D])
}
