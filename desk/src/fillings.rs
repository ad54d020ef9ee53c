//! Ways of filling the undefined leaves of a cycle: of its input, of constants
//! and of what delays hold.

use std::collections::BTreeSet;

use second::records::{A, CONSTANT, DELAY, KIND, RECORD_BYTES};

use crate::archive;
use crate::circuit::Accepted;
use crate::state::leaf_records;

/// The most ways of filling that are looked at.
const MOST: usize = 1024;

/// An undefined leaf: a byte of the sheet or of the input, and how many
/// constructors it can be.
struct Undefined {
    in_sheet: bool,
    at: usize,
    constructors: u8,
}

/// The undefined leaves of a circuit in some state, with an input.
fn undefined(accepted: &Accepted, sheet: &[u8], input: &[u8]) -> Vec<Undefined> {
    let circuit = &accepted.circuit;
    let types = circuit.types();
    let mut found = Vec::new();
    let mut add = |in_sheet: bool, at: usize, of: usize| {
        let byte = if in_sheet { sheet[at] } else { input[at] };
        if byte == 0 {
            found.push(Undefined { in_sheet, at, constructors: types.count(of) as u8 });
        }
    };
    for (at, of) in types.leaves(accepted.input).into_iter().enumerate() {
        add(false, at, of);
    }
    for (number, record) in circuit.records.iter().enumerate() {
        if record[KIND] == CONSTANT || record[KIND] == DELAY {
            let of = types.leaves(usize::from(record[A]));
            for (leaf, of) in leaf_records(&circuit.records, number).into_iter().zip(of) {
                add(true, RECORD_BYTES * leaf + 2 * A, of);
            }
        }
    }
    found
}

/// For each output leaf constructors that some ways of filling lead to, until
/// there are as many as are wanted; none where a cycle cannot be shown.
pub fn reached(
    accepted: &Accepted,
    sheet: &[u8],
    input: &[u8],
    wanted: &[u8],
) -> Option<Vec<BTreeSet<u8>>> {
    let undefined = undefined(accepted, sheet, input);
    let (mut sheet, mut input) = (sheet.to_vec(), input.to_vec());
    let mut filling = vec![1; undefined.len()];
    let mut found = vec![BTreeSet::new(); wanted.len()];
    for _ in 0..MOST {
        for (leaf, constructor) in undefined.iter().zip(&filling) {
            let bytes = if leaf.in_sheet { &mut sheet } else { &mut input };
            bytes[leaf.at] = *constructor;
        }
        for (found, leaf) in found.iter_mut().zip(archive::preview(&sheet, &input).ok()?) {
            found.insert(leaf);
        }
        let enough =
            found.iter().zip(wanted).all(|(found, count)| found.len() >= usize::from(*count));
        let next = undefined.iter().zip(&filling).position(|(leaf, now)| *now < leaf.constructors);
        match next.filter(|_| !enough) {
            Some(next) => {
                filling[next] += 1;
                filling[..next].fill(1);
            }
            None => break,
        }
    }
    Some(found)
}
