//! Evaluation in one cycle: the value of every expression, and what each delay
//! holds next. A feedback's value is the least one that its defining part gives
//! back unchanged; for small types, all such values can be tried.

use crate::accepted::Circuit;
use crate::matching::{chain, Match};
use crate::records::{
    Record, A, B, C, CONSTANT, D, DELAY, FEEDBACK, FIRST, IF, KIND, LET, NAME, PAIR, SECOND,
};
use crate::rule::Rule;
use crate::values::{all_values, undefined, value_count, Value};
use crate::watch::Watch;

/// What an IF tested in the evaluations of a cycle: in the first, in the last
/// but one and in the last of them. In the last the name of every feedback
/// around the IF holds its settled value.
#[derive(Clone, Default)]
pub struct Tested {
    pub first: Option<Value>,
    pub before: Option<Value>,
    pub last: Value,
}

impl Tested {
    fn note(&mut self, value: Value) {
        if self.first.is_none() {
            self.first = Some(value.clone());
            self.last = value;
        } else {
            self.before = Some(std::mem::replace(&mut self.last, value));
        }
    }
}

/// The steps of an evaluation that a comparison can replace to make a mistake,
/// with what such a step remembers. By default they are the right ones.
pub trait Steps: Default {
    /// What a chain says.
    fn said(circuit: &Circuit, first: u16, value: &[u8]) -> Match {
        chain(circuit, first, value)
    }

    /// The value of an IF whose pattern has said something.
    fn choice(on: &mut Evaluator<Self>, record: &Record, said: Match) -> Value {
        on.choice(record, said)
    }

    /// The value of an undecided IF.
    fn undecided(on: &Evaluator<Self>, then: Value, other: Value) -> Value {
        on.rule.undecided(&then, &other)
    }

    /// The value of a feedback.
    fn settle(on: &mut Evaluator<Self>, feedback: usize) -> Value {
        on.settle(feedback)
    }

    /// A cycle was taken.
    fn taken(&mut self) {}
}

/// The right steps.
#[derive(Default)]
pub struct Right;

impl Steps for Right {}

pub struct Evaluator<'a, S: Steps = Right> {
    pub circuit: &'a Circuit,
    pub rule: Rule,
    pub steps: S,
    /// The values of the names in scope, the innermost last.
    pub names: Vec<Value>,
    /// What each delay holds in this cycle, by record.
    pub held: Vec<Value>,
    /// What each delay holds next, from the last evaluation of its part.
    pub coming: Vec<Value>,
    /// What each IF tested, by record.
    pub tested: Vec<Tested>,
    watch: &'a mut Watch,
}

impl<'a, S: Steps> Evaluator<'a, S> {
    /// Begins from the values that the sheet's delays hold.
    pub fn new(circuit: &'a Circuit, rule: Rule, watch: &'a mut Watch) -> Self {
        let held = circuit.leaves.clone();
        let coming = held.clone();
        let tested = vec![Tested::default(); held.len()];
        let (steps, names) = (S::default(), Vec::new());
        Evaluator { circuit, rule, steps, names, held, coming, tested, watch }
    }

    /// The value of an expression. Every delay in it gets its next value.
    pub fn value(&mut self, number: usize) -> Value {
        let record = self.circuit.records[number];
        let width = self.circuit.width(number);
        match record[KIND] {
            CONSTANT => self.circuit.leaves[number].clone(),
            NAME => self.names[self.names.len() - 1 - usize::from(record[A])].clone(),
            PAIR => {
                let mut both = self.part(&record, A);
                both.extend(self.part(&record, B));
                both
            }
            FIRST => {
                let mut whole = self.part(&record, A);
                whole.truncate(width);
                whole
            }
            SECOND => {
                let mut whole = self.part(&record, A);
                whole.split_off(whole.len() - width)
            }
            LET => {
                let name = self.part(&record, A);
                self.part_with(name, &record, B)
            }
            FEEDBACK => {
                let name = S::settle(self, number);
                self.part_with(name, &record, C)
            }
            IF => {
                let tested = self.part(&record, A);
                let said = S::said(self.circuit, record[D], &tested);
                self.tested[number].note(tested);
                S::choice(self, &record, said)
            }
            DELAY => {
                self.coming[number] = self.part(&record, C);
                self.held[number].clone()
            }
            kind => unreachable!("kind {kind} is no expression"),
        }
    }

    pub fn part(&mut self, record: &Record, word: usize) -> Value {
        self.value(usize::from(record[word]))
    }

    /// A part with one more name in scope.
    fn part_with(&mut self, name: Value, record: &Record, word: usize) -> Value {
        self.names.push(name);
        let value = self.part(record, word);
        self.names.pop();
        value
    }

    /// An IF evaluates both branches, taken or not.
    fn choice(&mut self, record: &Record, said: Match) -> Value {
        let then = self.part(record, B);
        let other = self.part(record, C);
        match said {
            Match::Yes => then,
            Match::No => other,
            Match::Undecided => S::undecided(self, then, other),
        }
    }
}

/// Feedbacks.
impl<S: Steps> Evaluator<'_, S> {
    /// One application of a feedback's defining part.
    pub fn apply(&mut self, feedback: usize, value: Value) -> Value {
        let record = self.circuit.records[feedback];
        self.part_with(value, &record, B)
    }

    /// The value of a feedback that is undefined in every leaf.
    pub fn undefined(&self, feedback: usize) -> Value {
        undefined(self.circuit.width(usize::from(self.circuit.records[feedback][A])))
    }

    /// The value of a feedback. The next values of the delays in its defining
    /// part are those of the application that found it unchanged.
    pub fn settle(&mut self, feedback: usize) -> Value {
        let undefined = self.undefined(feedback);
        let settled = self.settle_from(feedback, undefined);
        let value = settled.unwrap_or_else(|| panic!("feedback {feedback} does not settle"));
        self.try_all(feedback, &value);
        value
    }

    /// Applies until unchanged. From undefined it takes one application for
    /// each leaf at most, and one that finds the value unchanged; from another
    /// value that need not do.
    pub fn settle_from(&mut self, feedback: usize, start: Value) -> Option<Value> {
        let mut value = start;
        for round in 0..=value.len() {
            let given = self.apply(feedback, value.clone());
            if given == value {
                self.watch.most = self.watch.most.max(round);
                return Some(value);
            }
            value = given;
        }
        None
    }

    /// All values of the feedback's type that an application gives back
    /// unchanged, with the names and delays as they are.
    pub fn fixed_points(&mut self, feedback: usize) -> Vec<Value> {
        let counts = self.circuit.counts(self.circuit.records[feedback][A]);
        let mut values = all_values(&counts);
        values.retain(|value| self.apply(feedback, value.clone()) == *value);
        values
    }

    /// Compares a feedback's value with all fixed points, where its type has
    /// few values.
    fn try_all(&mut self, feedback: usize, value: &Value) {
        let limit = self.watch.limit;
        if limit == 0 {
            return;
        }
        let counts = self.circuit.counts(self.circuit.records[feedback][A]);
        if value_count(&counts) > limit {
            return;
        }
        self.watch.limit = 0;
        let fixed_points = self.fixed_points(feedback);
        self.watch.note(value, &fixed_points);
        // Once more at the settled value, for the delays' next values.
        self.apply(feedback, value.clone());
        self.watch.limit = limit;
    }
}
