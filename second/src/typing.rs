//! The type rules: code 7. Expressions are walked parts before whole; the
//! walk goes no deeper than the limit of depth that was checked before.

use std::collections::HashMap;

use crate::answers::{Answer, ILL_TYPED};
use crate::records::{
    root, Record, A, B, C, CONSTANT, D, DELAY, FEEDBACK, FIRST, FLAT, IF, KIND, LET, NAME, NEXT,
    PAIR, PAIR_PATTERN, PAIR_TYPE, SECOND,
};
use crate::structure::Structure;

/// The types of an accepted sheet.
pub struct Typed {
    /// The type record of the root expression.
    pub output: u16,
    /// The type record of each expression, pattern and type; 0 elsewhere.
    pub types: Vec<u16>,
    /// The leaves of each such type; 0 elsewhere.
    pub widths: Vec<u64>,
}

/// A type's record, or the record where a type rule is broken.
type Derived = Result<u16, usize>;

/// The rules that a comparison can replace to make a mistake.
#[derive(Clone, Copy)]
pub struct Rules {
    /// What stands for each type when two are compared.
    pub standing: fn(&[Record]) -> Vec<u16>,
    /// The type of an IF.
    pub choice: fn(&mut Typing, &Record, usize) -> Result<Option<u16>, usize>,
}

pub const RULES: Rules =
    Rules { standing, choice: |typing, record, number| typing.choice(record, number) };

pub struct Typing<'a> {
    records: &'a [Record],
    leaves: &'a [u64],
    rules: &'a Rules,
    /// What stands for a type when two are compared: the record itself.
    standing: Vec<u16>,
    /// The pair type of two parts.
    pairs: HashMap<(u16, u16), u16>,
    /// The types of the names in scope, the innermost last.
    scope: Vec<u16>,
    pub types: Vec<u16>,
}

/// Derives the type of every expression, or finds the first fault.
pub fn judge(structure: &Structure, rules: &Rules) -> Result<Typed, Answer> {
    derive(&structure.records, &structure.leaves, rules)
        .map_err(|place| Answer { code: ILL_TYPED, place: place as u32 })
}

fn derive(records: &[Record], leaves: &[u64], rules: &Rules) -> Result<Typed, usize> {
    let standing = (rules.standing)(records);
    let mut pairs = HashMap::new();
    let mut types = vec![0; records.len()];
    for (number, record) in records.iter().enumerate() {
        if record[KIND] == PAIR_TYPE {
            let parts = (standing[usize::from(record[A])], standing[usize::from(record[B])]);
            pairs.entry(parts).or_insert(number as u16);
        }
        if record[KIND] == PAIR_TYPE || record[KIND] == FLAT {
            types[number] = number as u16;
        }
    }
    let scope = vec![records[0][A]];
    let mut typing = Typing { records, leaves, rules, standing, pairs, scope, types };
    let output = typing.expression(root(records))?;
    let types = typing.types;
    let widths = types.iter().map(|&t| leaves[usize::from(t)]).collect();
    Ok(Typed { output, types, widths })
}

/// The record itself for each type.
fn standing(records: &[Record]) -> Vec<u16> {
    (0..records.len() as u16).collect()
}

impl Typing<'_> {
    pub fn same(&self, x: u16, y: u16) -> bool {
        self.standing[usize::from(x)] == self.standing[usize::from(y)]
    }

    pub fn part(&mut self, record: &Record, word: usize) -> Derived {
        self.expression(usize::from(record[word]))
    }

    /// A part with one more name in scope.
    fn part_with(&mut self, name: u16, record: &Record, word: usize) -> Derived {
        self.scope.push(name);
        let found = self.part(record, word)?;
        self.scope.pop();
        Ok(found)
    }

    fn expression(&mut self, number: usize) -> Derived {
        let record = self.records[number];
        let found = match record[KIND] {
            CONSTANT => self.leaves_fit(record[B], record[A]).then_some(record[A]),
            NAME => self.name(record[A]),
            PAIR => {
                let first = self.part(&record, A)?;
                let second = self.part(&record, B)?;
                let key = (self.standing[usize::from(first)], self.standing[usize::from(second)]);
                self.pairs.get(&key).copied()
            }
            FIRST => self.part_of_pair(&record, A)?,
            SECOND => self.part_of_pair(&record, B)?,
            LET => {
                let name = self.part(&record, A)?;
                Some(self.part_with(name, &record, B)?)
            }
            FEEDBACK => {
                let defining = self.part_with(record[A], &record, B)?;
                let body = self.part_with(record[A], &record, C)?;
                self.same(defining, record[A]).then_some(body)
            }
            IF => (self.rules.choice)(self, &record, number)?,
            DELAY => {
                let part = self.part(&record, C)?;
                let fits = self.leaves_fit(record[B], record[A]);
                (fits && self.same(part, record[A])).then_some(record[A])
            }
            _ => None,
        };
        let found = found.ok_or(number)?;
        self.types[number] = found;
        Ok(found)
    }

    fn name(&self, number: u16) -> Option<u16> {
        self.scope.iter().rev().nth(usize::from(number)).copied()
    }

    /// First or second part: the type in that word of the pair type.
    fn part_of_pair(&mut self, record: &Record, word: usize) -> Result<Option<u16>, usize> {
        let whole = self.records[usize::from(self.part(record, A)?)];
        Ok((whole[KIND] == PAIR_TYPE).then_some(whole[word]))
    }

    /// An IF: the tested part, the pattern at once, then the branches. Each IF
    /// judges its pattern by its own tested type, named by others or not.
    fn choice(&mut self, record: &Record, number: usize) -> Result<Option<u16>, usize> {
        let tested = self.part(record, A)?;
        if !self.pattern_fits(record[D], tested) {
            return Err(number);
        }
        let then = self.part(record, B)?;
        let other = self.part(record, C)?;
        Ok(self.same(then, other).then_some(then))
    }

    /// Whether every alternative of a chain has the tested type, pair
    /// patterns part by part. Patterns may nest deeply: no recursion.
    pub fn pattern_fits(&mut self, first: u16, tested: u16) -> bool {
        let mut open = vec![(first, tested)];
        while let Some((pattern, tested)) = open.pop() {
            let record = self.records[usize::from(pattern)];
            self.types[usize::from(pattern)] = tested;
            if record[NEXT] != 0 {
                open.push((record[NEXT], tested));
            }
            if record[KIND] == PAIR_PATTERN {
                let whole = self.records[usize::from(tested)];
                if whole[KIND] != PAIR_TYPE {
                    return false;
                }
                open.push((record[A], whole[A]));
                open.push((record[B], whole[B]));
            } else if !self.same(record[A], tested) {
                return false;
            }
        }
        true
    }

    /// Whether a chain has as many leaves as the type, each no greater than
    /// its flat type's count.
    fn leaves_fit(&self, first: u16, wanted: u16) -> bool {
        let mut counts = self.counts(wanted).into_iter();
        let mut leaf = first;
        while leaf != 0 {
            let record = self.records[usize::from(leaf)];
            match counts.next() {
                Some(count) if record[A] <= count => leaf = record[NEXT],
                _ => return false,
            }
        }
        counts.next().is_none()
    }

    /// The counts of the flat types of a type's leaves, in order.
    fn counts(&self, wanted: u16) -> Vec<u16> {
        let mut counts = Vec::with_capacity(self.leaves[usize::from(wanted)] as usize);
        let mut open = vec![wanted];
        while let Some(number) = open.pop() {
            let record = self.records[usize::from(number)];
            if record[KIND] == FLAT {
                counts.push(record[A]);
            } else {
                open.push(record[B]);
                open.push(record[A]);
            }
        }
        counts
    }
}
