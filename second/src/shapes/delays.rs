//! Sheets of 4,096 records with many labelled delays, two and two with the same
//! labels in another order.

use super::building::{finish, joined, ladder, with_bit};
use crate::draft::Term;
use crate::layout::Order;
use crate::records::{D, DELAY};

/// So many delays of the input, a bit or 64 of them, with one value in each
/// leaf. The label depends on the place among the delays.
fn delays(count: usize, wide: bool, label: fn(usize) -> usize, value: u16) -> Vec<u8> {
    let (mut draft, bit) = with_bit();
    let of = if wide { ladder(&mut draft, bit, true)[63] } else { bit };
    draft.set_input(of);
    let values = vec![value; draft.width(of) as usize];
    let root = joined(&mut draft, count, 1, &|draft, scope| {
        let part = draft.name(scope as u16 - 1, of);
        let leaf = draft.leaves(&values);
        draft.delay(of, leaf, part)
    });
    let nodes = draft.nodes.iter_mut().filter(|node| node.kind() == DELAY);
    for (k, node) in nodes.enumerate() {
        node.words[D] = Term::Number(label(k) as u16);
    }
    finish(draft, root, Order::Random)
}

/// 1,000 delays of a bit.
pub fn labelled() -> Vec<u8> {
    delays(1000, false, |k| 1 + k, 1)
}

pub fn labelled_again() -> Vec<u8> {
    delays(1000, false, |k| 1000 - k, 2)
}

/// 60 delays of 64 leaves, of a type that grows by one leaf at a time.
pub fn wide() -> Vec<u8> {
    delays(60, true, |k| 1 + k, 1)
}

pub fn wide_again() -> Vec<u8> {
    delays(60, true, |k| 60 - k, 2)
}
