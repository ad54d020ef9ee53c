//! The records of a text whose names are right: header, types as declared, then
//! each expression before its parts, parts by the order of their words.

use super::naming::{Meant, Names};
use super::syntax::{Alternative, Constant, Definition, Expression, Name, Pattern, Syntax};
use crate::records::{
    Record, A, B, C, CONSTANT, CONSTRUCTOR, D, DELAY, FEEDBACK, FIRST, FLAT, HEADER, IF, KIND,
    LEAF, LET, NAME, NEXT, PAIR, PAIR_PATTERN, PAIR_TYPE, SECOND, WHOLE,
};

/// The most leaves of an undefined constant.
const LEAVES: usize = 64;

/// A word that gets the number of the next record written.
#[derive(Clone, Copy)]
pub struct Slot {
    record: usize,
    word: usize,
}

/// What is still to be written, and the word that names it.
pub enum Part<'a> {
    Expression(usize, Slot),
    /// The alternatives of a chain.
    Pattern(&'a [usize], Slot),
}

/// The rules of the layout, which a comparison can replace to make a mistake.
#[derive(Clone, Copy)]
pub struct Rules {
    /// The most leaves of an undefined constant.
    pub most_leaves: usize,
    /// The order of an IF's parts: the tested one, the two branches and the
    /// pattern are handed to it.
    pub choice: for<'a> fn([Part<'a>; 4]) -> [Part<'a>; 4],
}

pub const RULES: Rules = Rules { most_leaves: LEAVES, choice: |parts| parts };

struct Layout<'a> {
    syntax: &'a Syntax,
    names: &'a Names,
    /// The type of each constant.
    constant_types: &'a [usize],
    rules: &'a Rules,
    /// The leaves of each type, at most `most_leaves`; those of type 1 first.
    leaves: Vec<usize>,
    records: Vec<Record>,
    /// The next part last.
    to_do: Vec<Part<'a>>,
}

/// All records; there may be more than a sheet can have.
pub fn records(
    rules: &Rules,
    syntax: &Syntax,
    names: &Names,
    constant_types: &[usize],
) -> Vec<Record> {
    let (leaves, records, to_do) = (Vec::new(), Vec::new(), Vec::new());
    let mut layout = Layout { syntax, names, constant_types, rules, leaves, records, to_do };
    layout.header_and_types();
    layout.expressions();
    layout.records[0][C] = layout.records.len() as u16;
    layout.records
}

impl<'a> Layout<'a> {
    /// Writes a record, of which the word that names it is told.
    fn write(&mut self, named_by: Slot, kind: u16) -> usize {
        let number = self.records.len();
        self.records[named_by.record][named_by.word] = number as u16;
        self.records.push([kind, 0, 0, 0, 0, 0]);
        number
    }

    fn set(&mut self, record: usize, word: usize, value: usize) {
        self.records[record][word] = value as u16;
    }

    fn of(&self, name: &Name) -> usize {
        self.names.types[&name.letters]
    }

    fn header_and_types(&mut self) {
        let syntax = self.syntax;
        let mut header = [0; 6];
        header[KIND] = HEADER;
        header[A] = self.of(&syntax.input) as u16;
        self.records.push(header);
        for (before, declaration) in syntax.declarations.iter().enumerate() {
            let kind = match declaration.definition {
                Definition::Flat(_) => FLAT,
                Definition::Pair(..) => PAIR_TYPE,
            };
            let number = self.write(Slot { record: before, word: NEXT }, kind);
            let leaves = match &declaration.definition {
                Definition::Flat(constructors) => {
                    self.set(number, A, constructors.len());
                    1
                }
                Definition::Pair(first, second) => {
                    let (first, second) = (self.of(first), self.of(second));
                    self.set(number, A, first);
                    self.set(number, B, second);
                    self.leaves[first - 1] + self.leaves[second - 1]
                }
            };
            self.leaves.push(leaves.min(self.rules.most_leaves));
        }
    }

    fn expressions(&mut self) {
        self.to_do.push(Part::Expression(self.syntax.root(), Slot { record: 0, word: B }));
        while let Some(part) = self.to_do.pop() {
            match part {
                Part::Expression(number, slot) => self.expression(number, slot),
                Part::Pattern(chain, slot) => self.pattern(chain, slot),
            }
        }
    }

    /// The parts of a record come next, in this order.
    fn then(&mut self, record: usize, parts: &[(usize, usize)]) {
        let expression =
            |&(word, number): &(usize, usize)| Part::Expression(number, Slot { record, word });
        self.to_do.extend(parts.iter().rev().map(expression));
    }

    fn expression(&mut self, number: usize, slot: Slot) {
        let syntax = self.syntax;
        match &syntax.expressions[number] {
            Expression::Name(_) => self.name(number, slot),
            Expression::Undefined(name) => {
                let of = self.of(name);
                self.constant(slot, of, &vec![0; self.leaves[of - 1]]);
            }
            Expression::Pair(first, second) => {
                let record = self.write(slot, PAIR);
                self.then(record, &[(A, *first), (B, *second)]);
            }
            Expression::First(part) => {
                let record = self.write(slot, FIRST);
                self.then(record, &[(A, *part)]);
            }
            Expression::Second(part) => {
                let record = self.write(slot, SECOND);
                self.then(record, &[(A, *part)]);
            }
            Expression::Let { defining, body, .. } => {
                let record = self.write(slot, LET);
                self.then(record, &[(A, *defining), (B, *body)]);
            }
            Expression::Feedback { of, defining, body, .. } => {
                let record = self.write(slot, FEEDBACK);
                self.set(record, A, self.of(of));
                self.then(record, &[(B, *defining), (C, *body)]);
            }
            Expression::If { tested, pattern, then, other } => {
                let record = self.write(slot, IF);
                self.choice(record, [*tested, *then, *other], pattern);
            }
            Expression::Delay { constant, part } => {
                let record = self.write(slot, DELAY);
                self.set(record, A, self.constant_types[*constant]);
                let values = self.values(*constant);
                self.leaf_chain(record, &values);
                self.then(record, &[(C, *part)]);
            }
        }
    }

    fn name(&mut self, number: usize, slot: Slot) {
        match self.names.meant[number] {
            Some(Meant::Constructor(constructor)) => {
                self.constant(slot, constructor.of, &[constructor.number]);
            }
            meant => {
                let record = self.write(slot, NAME);
                if let Some(Meant::Distance(distance)) = meant {
                    self.set(record, A, distance);
                }
            }
        }
    }

    fn constant(&mut self, slot: Slot, of: usize, values: &[usize]) {
        let record = self.write(slot, CONSTANT);
        self.set(record, A, of);
        self.leaf_chain(record, values);
    }

    /// An IF: the pattern is the last of its parts.
    fn choice(&mut self, record: usize, parts: [usize; 3], pattern: &'a Pattern) {
        let [tested, then, other] = parts;
        let part = |number: usize, word: usize| Part::Expression(number, Slot { record, word });
        let pattern = Part::Pattern(pattern, Slot { record, word: D });
        let parts = [part(tested, A), part(then, B), part(other, C), pattern];
        self.to_do.extend((self.rules.choice)(parts).into_iter().rev());
    }

    /// The leaves of a constant or delay, whose word b names the first.
    fn leaf_chain(&mut self, record: usize, values: &[usize]) {
        let mut slot = Slot { record, word: B };
        for value in values {
            let leaf = self.write(slot, LEAF);
            self.set(leaf, A, *value);
            slot = Slot { record: leaf, word: NEXT };
        }
    }

    /// The values of the leaves of a DELAY's constant.
    fn values(&self, constant: usize) -> Vec<usize> {
        let mut values = Vec::new();
        let mut open = vec![constant];
        while let Some(number) = open.pop() {
            match &self.syntax.constants[number] {
                Constant::Constructor(name) => {
                    values.push(self.names.constructors[&name.letters].number);
                }
                Constant::Undefined(name) => {
                    values.resize(values.len() + self.leaves[self.of(name) - 1], 0);
                }
                Constant::Pair(first, second, _) => open.extend([*second, *first]),
            }
        }
        values
    }

    /// The first alternative of a chain with its parts, then the others.
    fn pattern(&mut self, chain: &'a [usize], slot: Slot) {
        let [first, rest @ ..] = chain else { return };
        let syntax = self.syntax;
        let record = match &syntax.alternatives[*first] {
            Alternative::Name(name) => self.named_alternative(name, slot),
            Alternative::Pair(..) => self.write(slot, PAIR_PATTERN),
        };
        self.to_do.push(Part::Pattern(rest, Slot { record, word: NEXT }));
        if let Alternative::Pair(first, second) = &syntax.alternatives[*first] {
            self.to_do.push(Part::Pattern(second, Slot { record, word: B }));
            self.to_do.push(Part::Pattern(first, Slot { record, word: A }));
        }
    }

    fn named_alternative(&mut self, name: &Name, slot: Slot) -> usize {
        match self.names.constructors.get(&name.letters).copied() {
            Some(constructor) => {
                let record = self.write(slot, CONSTRUCTOR);
                self.set(record, A, constructor.of);
                self.set(record, B, constructor.number);
                record
            }
            None => {
                let record = self.write(slot, WHOLE);
                self.set(record, A, self.of(name));
                record
            }
        }
    }
}
