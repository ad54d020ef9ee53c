//! Sheets of 4,096 records with patterns that cost a check or a cycle most.

use super::building::{finish, ladder, with_bit};
use crate::draft::Draft;
use crate::layout::Order;

/// An IF of the input on a chain of alternatives.
fn choice(draft: &mut Draft, pattern: usize) -> usize {
    let of = draft.input();
    let parts: Vec<usize> = (0..3).map(|_| draft.name(0, of)).collect();
    draft.choice(parts[0], pattern, parts[1], parts[2])
}

/// An IF with 4,090 alternatives.
pub fn pattern_chain() -> Vec<u8> {
    let (mut draft, bit) = with_bit();
    let chain: Vec<usize> = (0..4090).map(|k| draft.constructor(bit, 1 + k % 2)).collect();
    let pattern = draft.alternatives(&chain);
    let root = choice(&mut draft, pattern);
    finish(draft, root, Order::Random)
}

/// Pair patterns nested 63 deep: 127 records.
fn nested(draft: &mut Draft, stages: &[usize]) -> usize {
    let mut node = draft.constructor(stages[0], 1);
    for &stage in &stages[1..] {
        let second = draft.constructor(stages[0], 2);
        node = draft.pair_pattern(node, second, stage);
    }
    node
}

/// Alternatives that each nest pair patterns 63 deep.
pub fn nested_patterns() -> Vec<u8> {
    let (mut draft, bit) = with_bit();
    let stages = ladder(&mut draft, bit, true);
    draft.set_input(stages[63]);
    let chain: Vec<usize> = (0..31).map(|_| nested(&mut draft, &stages)).collect();
    let pattern = draft.alternatives(&chain);
    let root = choice(&mut draft, pattern);
    finish(draft, root, Order::Random)
}

/// Pair patterns nested 1,990 deep, on a type of depth 64: code 7.
pub fn deep_pattern() -> Vec<u8> {
    let (mut draft, bit) = with_bit();
    let stages = ladder(&mut draft, bit, false);
    draft.set_input(stages[63]);
    let mut node = draft.constructor(bit, 1);
    for _ in 0..1990 {
        let first = draft.constructor(bit, 2);
        node = draft.pair_pattern(first, node, bit);
    }
    let root = choice(&mut draft, node);
    finish(draft, root, Order::Random)
}

/// IFs in each other's parts, so many, all with one pattern; all their other
/// parts are the input.
fn choices(draft: &mut Draft, pattern: usize, count: usize) -> usize {
    let of = draft.input();
    let Some(rest) = count.checked_sub(1) else { return draft.name(0, of) };
    let parts = [rest, rest + 1, rest + 2].map(|count| choices(draft, pattern, count / 3));
    draft.choice(parts[0], pattern, parts[1], parts[2])
}

/// 512 IFs on one pattern of 2,048 alternatives, all of them the last
/// constructor: on any other input each IF comes to the end of the chain.
pub fn shared_pattern() -> Vec<u8> {
    let mut draft = Draft::new();
    let of = draft.flat(255);
    draft.set_input(of);
    let chain: Vec<usize> = (0..2048).map(|_| draft.constructor(of, 255)).collect();
    let pattern = draft.alternatives(&chain);
    let root = choices(&mut draft, pattern, 512);
    finish(draft, root, Order::Random)
}

/// 512 IFs on one pattern of 2,048 records, pair patterns nested 63 deep.
pub fn shared_nested_pattern() -> Vec<u8> {
    let (mut draft, bit) = with_bit();
    let stages = ladder(&mut draft, bit, true);
    draft.set_input(stages[63]);
    let mut chain: Vec<usize> = (0..16).map(|_| nested(&mut draft, &stages)).collect();
    chain.extend((0..16).map(|_| draft.whole(stages[63])));
    let pattern = draft.alternatives(&chain);
    let root = choices(&mut draft, pattern, 512);
    finish(draft, root, Order::Random)
}
