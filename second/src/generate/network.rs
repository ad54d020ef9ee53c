//! One feedback of many leaves, each leaf a small expression of other leaves.
//! Its type is a pair of equal parts, again and again.

use super::labels::label;
use super::patterns::share;
use super::types::doubling;
use crate::draft::Draft;
use crate::random::Random;

/// One leaf of a name of a type.
pub fn leaf_of(draft: &mut Draft, name: u16, of: usize, leaf: usize) -> usize {
    let mut node = draft.name(name, of);
    let (mut of, mut leaf) = (of, leaf);
    while let Some((first, second)) = draft.parts(of) {
        let before = draft.width(first) as usize;
        if leaf < before {
            of = first;
            node = draft.first(node, of);
        } else {
            of = second;
            node = draft.second(node, of);
            leaf -= before;
        }
    }
    node
}

/// An expression of such a type from one for each leaf.
pub fn joined(draft: &mut Draft, of: usize, leaves: &[usize]) -> usize {
    match draft.parts(of) {
        None => leaves[0],
        Some((first, second)) => {
            let (low, high) = leaves.split_at(leaves.len() / 2);
            let a = joined(draft, first, low);
            let b = joined(draft, second, high);
            draft.pair(a, b, of)
        }
    }
}

/// A random network. Most leaves depend on the one before them in a random
/// order, so that the feedback settles a few leaves at a time.
pub fn network(random: &mut Random) -> Draft {
    let doublings = random.range(1, 8).min(6);
    wired(doublings, |gates, before| gates.gate_or_source(before), random)
}

/// A feedback of 64 leaves, each the one before it in a random order, the
/// first a leaf of the input: where that is defined, it takes 64 applications.
pub fn chain_of_64(random: &mut Random) -> Draft {
    wired(6, |gates, before| gates.as_before(before), random)
}

/// A feedback whose leaves are made one after the other, in a random order,
/// each from the place of the one before it, if there is one.
fn wired(
    doublings: usize,
    make: fn(&mut Gates, Option<usize>) -> usize,
    random: &mut Random,
) -> Draft {
    let mut draft = Draft::new();
    let flat = draft.flat(random.range(1, 4) as u16);
    let of = doubling(&mut draft, doublings);
    draft.need_pair(flat, flat);
    let inputs = if random.one_in(2) { flat } else { of };
    draft.set_input(inputs);
    let width = draft.width(of) as usize;
    let mut order: Vec<usize> = (0..width).collect();
    for k in (1..width).rev() {
        order.swap(k, random.below(k + 1));
    }
    let mut leaves = vec![0; width];
    for (k, &leaf) in order.iter().enumerate() {
        let mut gates = Gates { draft: &mut draft, random, flat, of, inputs };
        leaves[leaf] = make(&mut gates, k.checked_sub(1).map(|k| order[k]));
    }
    let defining = joined(&mut draft, of, &leaves);
    let body = draft.name(0, of);
    let root = draft.feedback(of, defining, body);
    draft.set_root(root);
    share(&mut draft, random);
    label(&mut draft, random);
    draft
}

struct Gates<'a> {
    draft: &'a mut Draft,
    random: &'a mut Random,
    flat: usize,
    of: usize,
    inputs: usize,
}

impl Gates<'_> {
    /// A leaf of the input.
    fn input(&mut self) -> usize {
        let leaf = self.random.below(self.draft.width(self.inputs) as usize);
        leaf_of(self.draft, 1, self.inputs, leaf)
    }

    /// A leaf of the input, or a constant.
    fn source(&mut self) -> usize {
        if self.random.one_in(3) {
            return self.draft.random_constant(self.flat, self.random);
        }
        self.input()
    }

    /// The leaf before, or a leaf of the input.
    fn as_before(&mut self, before: Option<usize>) -> usize {
        match before {
            Some(leaf) => self.leaf(leaf),
            None => self.input(),
        }
    }

    /// A gate of the leaf before, at times of any leaf; first a source.
    fn gate_or_source(&mut self, before: Option<usize>) -> usize {
        match before {
            Some(_) if self.random.one_in(10) => {
                let leaf = self.random.below(self.draft.width(self.of) as usize);
                self.gate(leaf)
            }
            Some(leaf) => self.gate(leaf),
            None => self.source(),
        }
    }

    fn leaf(&mut self, leaf: usize) -> usize {
        leaf_of(self.draft, 0, self.of, leaf)
    }

    fn any(&mut self) -> usize {
        let leaf = self.random.below(self.draft.width(self.of) as usize);
        self.leaf(leaf)
    }

    fn constructor(&mut self) -> usize {
        let count = self.draft.counts(self.flat)[0];
        let number = self.random.range(1, usize::from(count)) as u16;
        self.draft.constructor(self.flat, number)
    }

    /// An expression that may depend on one leaf of the feedback.
    fn gate(&mut self, before: usize) -> usize {
        let part = self.leaf(before);
        match self.random.below(40) {
            0 => self.source(),
            1 | 2 => {
                let leaf = self.draft.random_leaves(self.flat, self.random);
                self.draft.delay(self.flat, leaf, part)
            }
            3 | 4 => {
                let pattern = self.constructor();
                let (then, other) = (self.source(), self.any());
                self.draft.choice(part, pattern, then, other)
            }
            5 | 6 => {
                let pattern = self.draft.whole(self.flat);
                let (tested, other) = (self.any(), self.source());
                self.draft.choice(tested, pattern, part, other)
            }
            7 => self.both(part),
            _ => part,
        }
    }

    /// An IF on a pair of the part and any leaf.
    fn both(&mut self, part: usize) -> usize {
        let pair = self.draft.need_pair(self.flat, self.flat);
        let other = self.any();
        let tested = self.draft.pair(part, other, pair);
        let (first, second) = (self.constructor(), self.constructor());
        let pattern = self.draft.pair_pattern(first, second, pair);
        let then = self.draft.random_constant(self.flat, self.random);
        let other = self.source();
        self.draft.choice(tested, pattern, then, other)
    }
}
