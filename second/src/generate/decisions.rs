//! Random circuits whose output leaves are decided by input leaves, so that a
//! change of one often alters them: to undefined and from it, and by few of
//! many constructors.

use super::labels::label;
use super::patterns::{full, share};
use super::types::split;
use crate::draft::Draft;
use crate::random::Random;

/// A circuit of IFs on parts of the input, some deep.
pub fn decisions(random: &mut Random) -> Draft {
    let mut draft = Draft::new();
    for _ in 0..random.range(1, 3) {
        let count = match random.below(8) {
            0 => random.range(100, 255),
            _ => random.range(1, 6),
        };
        draft.flat(count as u16);
    }
    let input = split(&mut draft, random.range(1, 6), random);
    draft.set_input(input);
    decide(&mut draft, random);
    draft
}

/// Gives a draft with an input such a circuit of one to three output leaves.
pub fn decide(draft: &mut Draft, random: &mut Random) {
    let (input, output) = (draft.input(), split(draft, random.range(1, 3), random));
    let root = Decider { draft, input, random }.of_type(output);
    draft.set_root(root);
    share(draft, random);
    label(draft, random);
}

struct Decider<'a> {
    draft: &'a mut Draft,
    input: usize,
    random: &'a mut Random,
}

impl Decider<'_> {
    /// An expression of a type: decided leaf by leaf.
    fn of_type(&mut self, of: usize) -> usize {
        match self.draft.parts(of) {
            Some((first, second)) => {
                let (a, b) = (self.of_type(first), self.of_type(second));
                self.draft.pair(a, b, of)
            }
            None => self.decided(of, 3),
        }
    }

    /// An IF at most so many deep on a part of the input.
    fn decided(&mut self, of: usize, depth: usize) -> usize {
        let (tested, tested_type) = self.part();
        let mut patterns = vec![full(self.draft, tested_type, self.random)];
        while self.random.one_in(3) {
            patterns.push(full(self.draft, tested_type, self.random));
        }
        let pattern = self.draft.alternatives(&patterns);
        let (then, other) = (self.branch(of, depth), self.branch(of, depth));
        self.draft.choice(tested, pattern, then, other)
    }

    /// A leaf of the input, seldom a pair of it; and its type.
    fn part(&mut self) -> (usize, usize) {
        let mut of = self.input;
        let mut node = self.draft.name(0, of);
        while let Some((first, second)) = self.draft.parts(of) {
            if self.random.one_in(5) {
                break;
            }
            let in_first = self.random.one_in(2);
            of = if in_first { first } else { second };
            node = if in_first { self.draft.first(node, of) } else { self.draft.second(node, of) };
        }
        (node, of)
    }

    /// Another IF, an undefined constant or any, a part of the input where it
    /// fits, or a delay of a constant.
    fn branch(&mut self, of: usize, depth: usize) -> usize {
        match self.random.below(8) {
            0..=2 if depth > 1 => self.decided(of, depth - 1),
            3 => {
                let undefined = self.draft.leaves(&[0]);
                self.draft.constant(of, undefined)
            }
            4 => match self.part() {
                (part, found) if found == of => part,
                _ => self.draft.random_constant(of, self.random),
            },
            5 => {
                let part = self.draft.random_constant(of, self.random);
                let held = self.draft.random_leaves(of, self.random);
                self.draft.delay(of, held, part)
            }
            _ => self.draft.random_constant(of, self.random),
        }
    }
}
