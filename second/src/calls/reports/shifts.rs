//! Random circuits of few input leaves and as many output leaves as are asked
//! for, which change often, seldom or never, from undefined and to it.

use crate::draft::Draft;
use crate::generate::labels::label;
use crate::generate::patterns::share;
use crate::generate::types::{random_count, split};
use crate::random::Random;

/// The most leaves of the input, where it is not of the output's type.
const INPUT: usize = 4;

/// A circuit of so many output leaves.
pub fn shifts(leaves: usize, random: &mut Random) -> Draft {
    let mut draft = Draft::new();
    for _ in 0..random.range(1, 3) {
        let count = random_count(random);
        draft.flat(count);
    }
    let output = split(&mut draft, leaves, random);
    let input = match random.one_in(5) {
        true => output,
        false => split(&mut draft, random.range(1, INPUT), random),
    };
    draft.set_input(input);
    let root = Shifter { draft: &mut draft, input, random }.of_type(output);
    draft.set_root(root);
    share(&mut draft, random);
    label(&mut draft, random);
    draft
}

/// The input, a bit, and its value in the cycle before, each in 32 output
/// leaves: each LET's name is a pair of the name around it.
pub fn doubled(random: &mut Random) -> Draft {
    let mut draft = Draft::new();
    let flat = draft.flat(random.range(2, 255) as u16);
    draft.set_input(flat);
    let mut types = vec![flat];
    for of in 0..6 {
        types.push(draft.need_pair(types[of], types[of]));
    }
    let now = draft.name(0, flat);
    let before = draft.name(0, flat);
    let held = draft.random_leaves(flat, random);
    let delay = draft.delay(flat, held, before);
    let mut defining = vec![draft.pair(now, delay, types[1])];
    for of in 1..6 {
        let (first, second) = (draft.name(0, types[of]), draft.name(0, types[of]));
        defining.push(draft.pair(first, second, types[of + 1]));
    }
    let body = draft.name(0, types[6]);
    let root = defining.into_iter().rev().fold(body, |body, part| draft.bind(part, body));
    draft.set_root(root);
    draft
}

struct Shifter<'a> {
    draft: &'a mut Draft,
    input: usize,
    random: &'a mut Random,
}

impl Shifter<'_> {
    /// An expression of a type: the input, if it is of that type; else leaf by
    /// leaf.
    fn of_type(&mut self, of: usize) -> usize {
        if of == self.input && self.random.one_in(2) {
            return self.draft.name(0, of);
        }
        match self.draft.parts(of) {
            Some((first, second)) => {
                let (a, b) = (self.of_type(first), self.of_type(second));
                self.draft.pair(a, b, of)
            }
            None => self.leaf(of),
        }
    }

    /// One output leaf: a leaf of the input, or its value in the cycle before,
    /// if there is one of that type; an IF on a leaf of the input; a constant.
    fn leaf(&mut self, of: usize) -> usize {
        match self.random.below(8) {
            0..=2 => match self.input_leaf() {
                (leaf, found) if found == of => leaf,
                _ => self.choice(of),
            },
            3 | 4 => {
                let part = match self.input_leaf() {
                    (leaf, found) if found == of => leaf,
                    _ => self.choice(of),
                };
                let held = self.draft.random_leaves(of, self.random);
                self.draft.delay(of, held, part)
            }
            5 | 6 => self.choice(of),
            _ => self.draft.random_constant(of, self.random),
        }
    }

    /// A constant, or undefined or another one, as a leaf of the input is.
    fn choice(&mut self, of: usize) -> usize {
        let (tested, tested_type) = self.input_leaf();
        let count = usize::from(self.draft.counts(tested_type)[0]);
        let pattern = self.draft.constructor(tested_type, self.random.range(1, count) as u16);
        let then = self.draft.random_constant(of, self.random);
        let other = match self.random.one_in(2) {
            true => {
                let undefined = self.draft.leaves(&[0]);
                self.draft.constant(of, undefined)
            }
            false => self.draft.random_constant(of, self.random),
        };
        self.draft.choice(tested, pattern, then, other)
    }

    /// A leaf of the input, and its type.
    fn input_leaf(&mut self) -> (usize, usize) {
        let mut of = self.input;
        let mut node = self.draft.name(0, of);
        while let Some((first, second)) = self.draft.parts(of) {
            let in_first = self.random.one_in(2);
            of = if in_first { first } else { second };
            node = if in_first { self.draft.first(node, of) } else { self.draft.second(node, of) };
        }
        (node, of)
    }
}
