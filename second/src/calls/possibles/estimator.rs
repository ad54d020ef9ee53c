//! What each leaf of an expression may still be in one cycle: evaluation over
//! sets. A circuit without feedbacks evaluates every expression once; delayed
//! parts are of no account within the cycle.

use super::sets::{self, said_by, Set, Sets};
use crate::accepted::Circuit;
use crate::matching::Match;
use crate::records::{
    Record, A, B, C, CONSTANT, D, DELAY, FEEDBACK, FIRST, IF, KIND, LET, NAME, PAIR, SECOND,
};

/// The steps that a comparison can replace to make a mistake.
#[derive(Clone, Copy)]
pub struct Rules {
    pub sets: sets::Rules,
    /// What a leaf that holds a byte may be, of a type of so many constructors.
    pub begun: fn(u8, u8) -> Set,
    /// What a constant and a delay give, by their record.
    pub constant: fn(&mut Estimator, usize) -> Sets,
    pub delay: fn(&mut Estimator, usize) -> Sets,
    /// The second part of a value, of so many leaves.
    pub second: fn(Sets, usize) -> Sets,
    /// What an IF gives, of what its pattern says and of both its branches.
    pub choice: fn(Match, Sets, Sets) -> Sets,
}

pub const RULES: Rules = Rules {
    sets: sets::RULES,
    begun: Set::begun,
    constant: |on, number| on.held(number),
    delay: |on, number| on.held(number),
    second: |mut whole, leaves| whole.split_off(whole.len() - leaves),
    choice: chosen,
};

/// Yes gives the then value and no the else value; undecided joins both.
pub fn chosen(said: Match, then: Sets, other: Sets) -> Sets {
    match said {
        Match::Yes => then,
        Match::No => other,
        Match::Undecided => joined(&then, &other),
    }
}

/// Leaf by leaf, what either may be.
pub fn joined(then: &[Set], other: &[Set]) -> Sets {
    then.iter().zip(other).map(|(x, y)| x.joined(*y)).collect()
}

pub struct Estimator<'a> {
    circuit: &'a Circuit,
    rules: &'a Rules,
    /// The sets of the names in scope, the innermost last.
    names: Vec<Sets>,
    /// What each IF tested, by record; none for those in delayed parts.
    pub tested: Vec<Option<Sets>>,
}

impl<'a> Estimator<'a> {
    pub fn new(circuit: &'a Circuit, rules: &'a Rules) -> Self {
        Estimator { circuit, rules, names: Vec::new(), tested: vec![None; circuit.records.len()] }
    }

    /// What each output leaf may be for one cycle's input.
    pub fn outputs(&mut self, input: &[u8]) -> Sets {
        self.names = vec![self.begun(input, self.circuit.input())];
        self.sets(self.circuit.root())
    }

    /// What each leaf of an expression may be.
    pub fn sets(&mut self, number: usize) -> Sets {
        let record = self.circuit.records[number];
        let width = self.circuit.width(number);
        match record[KIND] {
            CONSTANT => (self.rules.constant)(self, number),
            NAME => self.names[self.names.len() - 1 - usize::from(record[A])].clone(),
            PAIR => [self.part(&record, A), self.part(&record, B)].concat(),
            FIRST => {
                let mut whole = self.part(&record, A);
                whole.truncate(width);
                whole
            }
            SECOND => (self.rules.second)(self.part(&record, A), width),
            LET => {
                let name = self.part(&record, A);
                self.part_with(name, &record, B)
            }
            // Refused by code 22, but the definition is total: its name may
            // hold anything of its type.
            FEEDBACK => {
                let name = self.anything(record[A]);
                self.part_with(name, &record, C)
            }
            IF => {
                let tested = self.part(&record, A);
                let said = said_by(&self.rules.sets, self.circuit, record[D], &tested);
                self.tested[number] = Some(tested);
                let (then, other) = (self.part(&record, B), self.part(&record, C));
                (self.rules.choice)(said, then, other)
            }
            DELAY => (self.rules.delay)(self, number),
            kind => unreachable!("kind {kind} is no expression"),
        }
    }

    fn part(&mut self, record: &Record, word: usize) -> Sets {
        self.sets(usize::from(record[word]))
    }

    /// A part with one more name in scope.
    fn part_with(&mut self, name: Sets, record: &Record, word: usize) -> Sets {
        self.names.push(name);
        let sets = self.part(record, word);
        self.names.pop();
        sets
    }

    /// What the leaves of a value of a type may be.
    fn begun(&self, value: &[u8], of: u16) -> Sets {
        let counts = self.circuit.counts(of);
        value.iter().zip(counts).map(|(byte, count)| (self.rules.begun)(*byte, count)).collect()
    }

    /// What a constant or a delay holds.
    pub fn held(&self, number: usize) -> Sets {
        self.begun(&self.circuit.leaves[number], self.circuit.records[number][A])
    }

    /// All of a type.
    pub fn anything(&self, of: u16) -> Sets {
        self.begun(&vec![0; self.circuit.width(usize::from(of))], of)
    }

    /// What the delayed part of a delay may be.
    pub fn delayed(&mut self, number: usize) -> Sets {
        let record = self.circuit.records[number];
        self.part(&record, C)
    }

    /// The label of a delay.
    pub fn label(&self, number: usize) -> u16 {
        self.circuit.records[number][D]
    }

    /// The type that a constant or a delay names.
    pub fn type_of(&self, number: usize) -> u16 {
        self.circuit.records[number][A]
    }
}

/// What each output leaf may be for one cycle's input.
pub fn estimate(circuit: &Circuit, input: &[u8]) -> Sets {
    Estimator::new(circuit, &RULES).outputs(input)
}
