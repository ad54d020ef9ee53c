//! Random circuits without feedbacks whose IFs ask for all, nearly all and few
//! of the constructors that are possible: in chains on flat types, in chains of
//! pair patterns that name every pair together, and in chains inside them.

use crate::draft::Draft;
use crate::generate::labels::label;
use crate::generate::patterns::share;
use crate::generate::types::split;
use crate::random::Random;

/// Up to three LETs of IFs, each on the input and the names before it, around
/// such IFs.
pub fn circuit(random: &mut Random) -> Draft {
    let mut draft = Draft::new();
    for _ in 0..random.range(1, 3) {
        let count = match random.below(10) {
            0 => 1,
            1 | 2 if random.one_in(4) => 63,
            1 | 2 => 64,
            3 => random.range(5, 9),
            _ => random.range(2, 4),
        };
        draft.flat(count as u16);
    }
    let input = split(&mut draft, random.range(1, 4), random);
    draft.set_input(input);
    let names = vec![input];
    let mut maker = Maker { draft: &mut draft, random, names };
    let root = maker.lets();
    draft.set_root(root);
    share(&mut draft, random);
    label(&mut draft, random);
    draft
}

struct Maker<'a> {
    draft: &'a mut Draft,
    random: &'a mut Random,
    /// The types of the names in scope, the innermost last.
    names: Vec<usize>,
}

impl Maker<'_> {
    fn any_type(&mut self) -> usize {
        let leaves = self.random.range(1, 3);
        split(self.draft, leaves, self.random)
    }

    /// LETs, and at last an expression.
    fn lets(&mut self) -> usize {
        let of = self.any_type();
        let expression = self.of_type(of, 2);
        if self.names.len() > 3 || self.random.one_in(3) {
            return expression;
        }
        self.names.push(of);
        let body = self.lets();
        self.names.pop();
        self.draft.bind(expression, body)
    }

    /// An expression: a pair of such, an IF at most so many deep, or less.
    fn of_type(&mut self, of: usize, depth: usize) -> usize {
        match (self.draft.parts(of), self.random.below(3)) {
            (Some((first, second)), 0 | 1) => {
                let (a, b) = (self.of_type(first, depth), self.of_type(second, depth));
                self.draft.pair(a, b, of)
            }
            (None, 0) if depth < 2 => self.plain(of),
            _ if depth == 0 => self.plain(of),
            _ => self.choice(of, depth),
        }
    }

    fn choice(&mut self, of: usize, depth: usize) -> usize {
        let (tested, tested_type) = self.tested();
        let pattern = self.pattern(tested_type);
        let (then, other) = (self.of_type(of, depth - 1), self.of_type(of, depth - 1));
        self.draft.choice(tested, pattern, then, other)
    }

    /// A part of a name, or a pair of two; and its type.
    fn tested(&mut self) -> (usize, usize) {
        let (part, of) = self.part();
        if self.draft.width(of) > 2 || !self.random.one_in(3) {
            return (part, of);
        }
        let (second, of_second) = self.part();
        let pair = self.draft.need_pair(of, of_second);
        (self.draft.pair(part, second, pair), pair)
    }

    /// A name of those in scope, mostly a part of it; and its type.
    fn part(&mut self) -> (usize, usize) {
        let number = self.random.below(self.names.len());
        let mut of = self.names[self.names.len() - 1 - number];
        let mut node = self.draft.name(number as u16, of);
        while let Some((first, second)) = self.draft.parts(of) {
            if self.random.one_in(3) {
                break;
            }
            let in_first = self.random.one_in(2);
            of = if in_first { first } else { second };
            node = if in_first { self.draft.first(node, of) } else { self.draft.second(node, of) };
        }
        (node, of)
    }

    /// A part of a name where it fits, a constant, or a delay of one; a third of
    /// their leaves is undefined.
    fn plain(&mut self, of: usize) -> usize {
        for _ in 0..4 {
            if let (part, true) = self.fitting_part(of) {
                return part;
            }
        }
        let leaf = self.leaves(of);
        let constant = self.draft.constant(of, leaf);
        if self.random.one_in(3) {
            let held = self.leaves(of);
            return self.draft.delay(of, held, constant);
        }
        constant
    }

    /// A part of a name, and whether it is of a type.
    fn fitting_part(&mut self, of: usize) -> (usize, bool) {
        let (part, found) = self.part();
        (part, found == of && self.random.one_in(3))
    }

    fn leaves(&mut self, of: usize) -> usize {
        let counts = self.draft.counts(of);
        let leaf = |count: u16| match self.random.one_in(3) {
            true => 0,
            false => self.random.range(1, usize::from(count)) as u16,
        };
        let values: Vec<u16> = counts.into_iter().map(leaf).collect();
        self.draft.leaves(&values)
    }

    /// A chain of alternatives of a type.
    fn pattern(&mut self, of: usize) -> usize {
        let patterns = match self.draft.parts(of) {
            None => self.constructors(of),
            Some((first, second)) if self.random.one_in(3) => self.all_pairs(of, first, second),
            Some(_) => {
                let mut patterns = vec![self.pair(of)];
                while self.random.one_in(2) && patterns.len() < 4 {
                    patterns.push(self.pair(of));
                }
                patterns
            }
        };
        self.draft.alternatives(&patterns)
    }

    /// All constructors of a flat type, all but one, or some, in any order; at
    /// times the whole type among them.
    fn constructors(&mut self, of: usize) -> Vec<usize> {
        let count = usize::from(self.draft.counts(of)[0]);
        let many = count > 9 && !self.random.one_in(4);
        let named = match self.random.below(6) {
            0 | 1 if !many => count,
            2 if !many => (count - 1).max(1),
            3 => 1,
            _ => self.random.range(1, count.min(6)),
        };
        let mut numbers: Vec<usize> = (1..=count).collect();
        for k in 0..named {
            numbers.swap(k, self.random.range(k, count - 1));
        }
        let number = |number: &usize| self.draft.constructor(of, *number as u16);
        let mut patterns: Vec<usize> = numbers[..named].iter().map(number).collect();
        if self.random.one_in(10) {
            let whole = self.draft.whole(of);
            patterns.insert(self.random.below(named + 1), whole);
        }
        patterns
    }

    /// The whole pair, or a pair pattern of two chains.
    fn pair(&mut self, of: usize) -> usize {
        match self.draft.parts(of) {
            Some((first, second)) if !self.random.one_in(8) => {
                let (first, second) = (self.part_pattern(first), self.part_pattern(second));
                self.draft.pair_pattern(first, second, of)
            }
            _ => self.draft.whole(of),
        }
    }

    fn part_pattern(&mut self, of: usize) -> usize {
        match self.random.one_in(4) {
            true => self.draft.whole(of),
            false => self.pattern(of),
        }
    }

    /// For each constructor of the first leaf, a pair with all of the rest, so
    /// that every pair is named; seldom the last is left out.
    fn all_pairs(&mut self, of: usize, first: usize, second: usize) -> Vec<usize> {
        let count = self.draft.counts(first)[0];
        if self.draft.parts(first).is_some() || count > 4 {
            return vec![self.pair(of), self.pair(of)];
        }
        let last = if self.random.one_in(6) { count - 1 } else { count };
        let mut patterns = Vec::new();
        for number in 1..=last.max(1) {
            let first = self.draft.constructor(first, number);
            let second = self.all_of(second);
            patterns.push(self.draft.pair_pattern(first, second, of));
        }
        patterns
    }

    /// The whole type, or each of its few constructors.
    fn all_of(&mut self, of: usize) -> usize {
        let counts = self.draft.counts(of);
        match counts[..] {
            [count @ 1..=4] if self.random.one_in(2) => {
                let number = |number: u16| self.draft.constructor(of, number);
                let patterns: Vec<usize> = (1..=count).map(number).collect();
                self.draft.alternatives(&patterns)
            }
            _ => self.draft.whole(of),
        }
    }
}
