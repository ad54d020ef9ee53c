//! Sheets that are timed: small ones, ones of many IFs, named ones of 4,096
//! records, and ones whose IFs all share one pattern.

use super::fitting::fitted;
use crate::accepted::Circuit;
use crate::draft::Draft;
use crate::generate::circuits::circuit_of_records;
use crate::generate::network::{joined, leaf_of};
use crate::generate::types::doubling;
use crate::layout::{layout_in, Order};
use crate::random::Random;
use crate::records::{bytes, read, A, B, CONSTRUCTOR, FLAT, KIND};
use crate::samples;
use crate::shapes;
use crate::structure::choices_on;

/// What a row has to keep to.
#[derive(Clone, Copy)]
pub enum Limit {
    /// The time of a preview, so many times.
    Previews(f64),
    /// So many microseconds.
    Micros(f64),
}

pub struct Row {
    pub name: &'static str,
    pub sheet: Vec<u8>,
    pub limit: Limit,
}

/// Named sheets without feedbacks and without shared patterns.
const NAMED: [&str; 11] = [
    "deep",
    "wide",
    "leaf-chains",
    "deep-constants",
    "delays",
    "pattern-chain",
    "nested-patterns",
    "names",
    "labelled-delays",
    "wide-delays",
    "pair-types",
];

/// All rows.
pub fn rows() -> Vec<Row> {
    let row = |name, sheet| Row { name, sheet, limit: Limit::Previews(3.0) };
    let mut rows = vec![
        row("and", samples::and()),
        row("two-pairs", samples::two_pairs()),
        row("64-choices", choices(false)),
        row("64-choices-on-pairs", choices(true)),
        row("580-wide-choices", wide_choices()),
        row("64-names-of-64-leaves", names_of_64_leaves()),
        row("random", without_shared_patterns()),
    ];
    for name in NAMED {
        rows.extend(shapes::named(name).map(|sheet| row(name, sheet)));
    }
    let shared = |name, sheet| Row { name, sheet, limit: Limit::Micros(20_000.0) };
    rows.push(shared("shared-pattern-of-64", shared_pattern()));
    let nested = shapes::named("shared-nested-pattern");
    rows.extend(nested.map(|sheet| shared("shared-nested-pattern", sheet)));
    rows
}

fn laid(draft: &Draft) -> Vec<u8> {
    bytes(&layout_in(draft, Order::Random, &mut Random::new(1)))
}

/// 512 IFs on one pattern of 2,048 alternatives, all of them the last of 64
/// constructors: of an undefined input each IF comes to the end of the chain.
fn shared_pattern() -> Vec<u8> {
    let mut records = read(&shapes::named("shared-pattern").unwrap_or_default());
    for record in &mut records {
        match record[KIND] {
            FLAT => record[A] = record[A].min(64),
            CONSTRUCTOR => record[B] = record[B].min(64),
            _ => {}
        }
    }
    bytes(&records)
}

/// 64 IFs: the input's leaf, of four constructors, IF it is 1 or 2, or IF it and
/// the next leaf are the pair (1,1) or (2,2), ELSE another leaf.
fn choices(on_pairs: bool) -> Vec<u8> {
    let mut draft = Draft::new();
    let four = draft.flat(4);
    let of = doubling(&mut draft, 6);
    let pair = draft.need_pair(four, four);
    draft.set_input(of);
    let mut leaves = Vec::new();
    for leaf in 0..64 {
        let at = |draft: &mut Draft, by: usize| leaf_of(draft, 0, of, (leaf + by) % 64);
        let (then, other) = (at(&mut draft, 0), at(&mut draft, 7));
        let first = at(&mut draft, 0);
        let mut patterns = Vec::new();
        for number in [1, 2] {
            let mut pattern = draft.constructor(four, number);
            if on_pairs {
                let second = draft.constructor(four, number);
                pattern = draft.pair_pattern(pattern, second, pair);
            }
            patterns.push(pattern);
        }
        let pattern = draft.alternatives(&patterns);
        let tested = match on_pairs {
            true => {
                let second = at(&mut draft, 1);
                draft.pair(first, second, pair)
            }
            false => first,
        };
        leaves.push(draft.choice(tested, pattern, then, other));
    }
    let root = joined(&mut draft, of, &leaves);
    draft.set_root(root);
    laid(&draft)
}

/// As many names of as many leaves as there can be: LETs in each other's bodies,
/// of which most exchange the halves of the name before; the innermost
/// expression is a name in the middle.
fn names_of_64_leaves() -> Vec<u8> {
    let mut draft = Draft::new();
    draft.flat(64);
    let half = doubling(&mut draft, 5);
    let of = draft.need_pair(half, half);
    draft.set_input(of);
    let mut root = draft.name(40, of);
    for depth in (1..64).rev() {
        // The parts of such a pair lie three deeper.
        let defining = if depth > 61 {
            draft.name(0, of)
        } else {
            let (whole, again) = (draft.name(0, of), draft.name(0, of));
            let (second, first) = (draft.second(whole, half), draft.first(again, half));
            draft.pair(second, first, of)
        };
        root = draft.bind(defining, root);
    }
    draft.set_root(root);
    laid(&draft)
}

/// 580 IFs in each other's parts on an input of 64 leaves, each IF by a bit at
/// the end of it; all other parts are the input.
fn wide_choices() -> Vec<u8> {
    let mut draft = Draft::new();
    let bit = draft.flat(2);
    let others = (2..64).fold(bit, |of, _| draft.need_pair(of, bit));
    let input = draft.need_pair(others, bit);
    draft.set_input(input);
    let root = nested_choices(&mut draft, [others, bit, input], 580);
    draft.set_root(root);
    laid(&draft)
}

fn nested_choices(draft: &mut Draft, types: [usize; 3], count: usize) -> usize {
    let [others, bit, input] = types;
    let Some(rest) = count.checked_sub(1) else { return draft.name(0, input) };
    let part = |draft: &mut Draft, more: usize| nested_choices(draft, types, (rest + more) / 3);
    let (tested, then, other) = (part(draft, 0), part(draft, 1), part(draft, 2));
    let (whole, one) = (draft.whole(others), draft.constructor(bit, 1));
    let pattern = draft.pair_pattern(whole, one, input);
    draft.choice(tested, pattern, then, other)
}

/// The first random circuit of many records in which no two IFs share a pattern.
fn without_shared_patterns() -> Vec<u8> {
    let mut random = Random::new(3);
    loop {
        let draft = fitted(circuit_of_records(3_600, &mut random), &mut random);
        let sheet = laid(&draft);
        let alone = choices_on(&read(&sheet)).into_iter().all(|count| count < 2);
        if alone && Circuit::read(&sheet).is_ok() {
            return sheet;
        }
    }
}
