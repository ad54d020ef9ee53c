//! Random circuits that go through leaves of the input one after the other: a
//! state is changed by each, so that an output leaf hangs on many of them. AND,
//! XOR, comparisons and carries are of this form.

use super::products::type_of;
use crate::draft::Draft;
use crate::generate::labels::label;
use crate::generate::network::leaf_of;
use crate::generate::patterns::{full, share};
use crate::random::Random;

/// The most leaves that a fold goes through.
const MOST_STEPS: usize = 20;

/// A fold over an input with these constructor counts, of at most so many steps.
pub fn fold(counts: &[usize], most_steps: usize, random: &mut Random) -> Draft {
    let mut draft = Draft::new();
    let input = type_of(&mut draft, counts, random);
    draft.set_input(input);
    let constructors = match random.below(8) {
        0 => 255,
        1 => random.range(5, 255),
        _ => random.range(1, 4),
    };
    let state = type_of(&mut draft, &[constructors], random);
    let steps = random.range(1, most_steps.min(MOST_STEPS).min(2 * counts.len()));
    let mut fold = Fold { draft: &mut draft, input, state, names: 0, random };
    let mut defining = vec![fold.start()];
    for _ in 1..steps {
        fold.names += 1;
        let step = fold.step();
        defining.push(step);
    }
    fold.names += 1;
    let body = fold.end();
    let bind = |body, part| draft.bind(part, body);
    let root = defining.into_iter().rev().fold(body, bind);
    draft.set_root(root);
    share(&mut draft, random);
    label(&mut draft, random);
    draft
}

struct Fold<'a> {
    draft: &'a mut Draft,
    input: usize,
    state: usize,
    /// How many names there are inside the input's; the innermost is the state.
    names: u16,
    random: &'a mut Random,
}

impl Fold<'_> {
    /// Any leaf of the input, and its type.
    fn leaf(&mut self) -> (usize, usize) {
        let leaf = self.random.below(self.draft.width(self.input) as usize);
        let node = leaf_of(self.draft, self.names, self.input, leaf);
        (node, self.draft.nodes[node].of)
    }

    /// The first state: a constant or a delay, or an IF on a leaf.
    fn start(&mut self) -> usize {
        if self.random.one_in(4) {
            return self.source();
        }
        let (leaf, of) = self.leaf();
        let pattern = full(self.draft, of, self.random);
        let (then, other) = (self.source(), self.source());
        self.draft.choice(leaf, pattern, then, other)
    }

    /// An IF on the state and a leaf.
    fn step(&mut self) -> usize {
        let (leaf, of) = self.leaf();
        let pair = self.draft.need_pair(self.state, of);
        let state = self.draft.name(0, self.state);
        let tested = self.draft.pair(state, leaf, pair);
        let mut patterns = vec![full(self.draft, pair, self.random)];
        while self.random.one_in(2) {
            patterns.push(full(self.draft, pair, self.random));
        }
        let pattern = self.draft.alternatives(&patterns);
        let (then, other) = (self.next(), self.next());
        self.draft.choice(tested, pattern, then, other)
    }

    /// A next state: the one before, a leaf where it fits, or a source.
    fn next(&mut self) -> usize {
        match self.random.below(4) {
            0 | 1 => self.draft.name(0, self.state),
            2 => match self.leaf() {
                (leaf, of) if of == self.state => leaf,
                _ => self.source(),
            },
            _ => self.source(),
        }
    }

    /// A constant, seldom undefined and often of the last constructor, or a delay
    /// that holds such a one.
    fn source(&mut self) -> usize {
        let count = usize::from(self.draft.counts(self.state)[0]);
        let value = match self.random.below(10) {
            0 => 0,
            1 | 2 => count,
            _ => self.random.range(1, count),
        };
        let leaf = self.draft.leaves(&[value as u16]);
        if self.random.one_in(6) {
            let part = self.draft.random_constant(self.state, self.random);
            return self.draft.delay(self.state, leaf, part);
        }
        self.draft.constant(self.state, leaf)
    }

    /// The last state, or a pair of it and a leaf.
    fn end(&mut self) -> usize {
        let state = self.draft.name(0, self.state);
        if self.random.one_in(2) {
            return state;
        }
        let (leaf, of) = self.leaf();
        let pair = self.draft.need_pair(self.state, of);
        self.draft.pair(state, leaf, pair)
    }
}
