//! Sheets whose runs are long or whose feedbacks settle slowly.

use super::building::laid;
use crate::draft::Draft;
use crate::generate::circuits::circuit_of_records;
use crate::generate::network::{joined, leaf_of};
use crate::generate::types::doubling;
use crate::layout::Order;
use crate::random::Random;

fn constant(draft: &mut Draft, bit: usize, value: u16) -> usize {
    let leaf = draft.leaves(&[value]);
    draft.constant(bit, leaf)
}

/// A named bit flipped.
fn flipped(draft: &mut Draft, bit: usize, name: u16) -> usize {
    let tested = draft.name(name, bit);
    let pattern = draft.constructor(bit, 2);
    let hi = constant(draft, bit, 1);
    let lo = constant(draft, bit, 2);
    draft.choice(tested, pattern, hi, lo)
}

/// A delay of a bit that holds lo.
fn delayed(draft: &mut Draft, bit: usize, part: usize) -> usize {
    let held = draft.leaves(&[2]);
    draft.delay(bit, held, part)
}

/// A leaf of the input, which is a name of such a type.
struct Asked {
    name: u16,
    of: usize,
    leaf: usize,
}

impl Asked {
    fn node(&self, draft: &mut Draft) -> usize {
        leaf_of(draft, self.name, self.of, self.leaf)
    }
}

/// The delay of T, of which name 0 is the value: it flips where that is asked.
fn toggled(draft: &mut Draft, bit: usize, asked: &Asked) -> usize {
    let flipped = flipped(draft, bit, 0);
    let asked = asked.node(draft);
    let pattern = draft.constructor(bit, 1);
    let kept = draft.name(0, bit);
    let choice = draft.choice(asked, pattern, flipped, kept);
    delayed(draft, bit, choice)
}

/// The circuit of T with one leaf of the input for its input.
fn flip(draft: &mut Draft, bit: usize, of: usize, leaf: usize) -> usize {
    let delay = toggled(draft, bit, &Asked { name: 1, of, leaf });
    let body = draft.name(0, bit);
    draft.feedback(bit, delay, body)
}

/// The high bit of a counter of two bits: it counts the cycles in which one
/// leaf of the input is hi. Each bit is a feedback through a delay, that of the
/// low bit inside the delay of the high one.
fn count(draft: &mut Draft, bit: usize, of: usize, leaf: usize) -> usize {
    let two = draft.need_pair(bit, bit);
    let asked = Asked { name: 2, of, leaf };
    let low_delay = toggled(draft, bit, &asked);
    let (add, low) = (asked.node(draft), draft.name(0, bit));
    let tested = draft.pair(add, low, two);
    let [one, other] = [1, 1].map(|hi| draft.constructor(bit, hi));
    let both = draft.pair_pattern(one, other, two);
    let flipped = flipped(draft, bit, 1);
    let kept = draft.name(1, bit);
    let carried = draft.choice(tested, both, flipped, kept);
    let part = draft.feedback(bit, low_delay, carried);
    let high_delay = delayed(draft, bit, part);
    let body = draft.name(0, bit);
    draft.feedback(bit, high_delay, body)
}

/// One counter of two bits.
pub fn counter() -> Vec<u8> {
    let mut draft = Draft::new();
    let bit = draft.flat(2);
    draft.set_input(bit);
    let root = count(&mut draft, bit, bit, 0);
    draft.set_root(root);
    laid(&draft, Order::Random)
}

/// A circuit of one bit.
type OneBit = fn(&mut Draft, usize, usize, usize) -> usize;

/// 64 copies of a circuit side by side, each with its own leaf of the input.
fn copies(of_one: OneBit) -> Vec<u8> {
    let mut draft = Draft::new();
    let bit = draft.flat(2);
    let of = doubling(&mut draft, 6);
    draft.set_input(of);
    let copies: Vec<usize> = (0..64).map(|leaf| of_one(&mut draft, bit, of, leaf)).collect();
    let root = joined(&mut draft, of, &copies);
    draft.set_root(root);
    laid(&draft, Order::Random)
}

/// 64 copies of T.
pub fn side_by_side() -> Vec<u8> {
    copies(flip)
}

/// 64 counters of two bits.
pub fn counters() -> Vec<u8> {
    copies(count)
}

/// A name with each leaf one place later, after a given first leaf.
fn shifted(draft: &mut Draft, name: u16, of: usize, first: usize) -> usize {
    let mut leaves = vec![first];
    for leaf in 1..draft.width(of) as usize {
        leaves.push(leaf_of(draft, name, of, leaf - 1));
    }
    joined(draft, of, &leaves)
}

/// Nested feedbacks, up to three, of a power of two of leaves. Each defines
/// one leaf for each application, the first after the last of the one inside.
fn slow_feedbacks(doublings: usize, nested: u16) -> Vec<u8> {
    let mut draft = Draft::new();
    let bit = draft.flat(2);
    let of = doubling(&mut draft, doublings);
    draft.set_input(bit);
    let last = draft.width(of) as usize - 1;
    // The input is the name outside all feedbacks.
    let input = draft.name(nested, bit);
    let mut defining = shifted(&mut draft, 0, of, input);
    for _ in 1..nested {
        let first = leaf_of(&mut draft, 0, of, last);
        let body = shifted(&mut draft, 1, of, first);
        defining = draft.feedback(of, defining, body);
    }
    let body = draft.name(0, of);
    let root = draft.feedback(of, defining, body);
    draft.set_root(root);
    laid(&draft, Order::Random)
}

pub fn one_slow() -> Vec<u8> {
    slow_feedbacks(6, 1)
}

pub fn three_slow_8() -> Vec<u8> {
    slow_feedbacks(3, 3)
}

pub fn three_slow_64() -> Vec<u8> {
    slow_feedbacks(6, 3)
}

/// A random circuit of 4,000 records.
pub fn random_4000() -> Vec<u8> {
    laid(&circuit_of_records(4000, &mut Random::new(3)), Order::Random)
}
