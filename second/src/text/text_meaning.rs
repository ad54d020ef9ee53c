//! The meaning of a text over its names, by the rules of 001, section 2: an
//! expression gives a value and the expression of the next cycle. For texts
//! whose sheets are accepted.

use std::rc::Rc;

use super::syntax::Syntax;
use super::terms::{Circuit, Pattern, Term, Value};
use super::tokens::INPUT;
use crate::matching::Match;
use crate::rule::Rule;

/// The outputs of a text, cycle for cycle; each input is the leaves of one.
pub fn outputs<'a>(
    syntax: &Syntax,
    inputs: impl Iterator<Item = &'a [u8]>,
    rule: Rule,
) -> Vec<Vec<u8>> {
    let circuit = Circuit::new(syntax);
    let mut term = circuit.term();
    let mut outputs = Vec::new();
    for input in inputs {
        let mut rules = Rules { rule, environment: Vec::new() };
        rules.environment.push((INPUT.to_string(), circuit.input(input)));
        let (value, next) = rules.reduce(&term);
        outputs.push(circuit.leaves(&value));
        term = next;
    }
    outputs
}

/// The rules of one cycle, with the values of the names in scope, the nearest
/// last.
struct Rules {
    rule: Rule,
    environment: Vec<(String, Value)>,
}

impl Rules {
    /// The value of a term, and the term of the next cycle.
    fn reduce(&mut self, term: &Rc<Term>) -> (Value, Rc<Term>) {
        match &**term {
            Term::Constant(value) => (value.clone(), term.clone()),
            Term::Name(name) => (self.value(name), term.clone()),
            Term::Pair(first, second) => {
                let (v, first) = self.reduce(first);
                let (w, second) = self.reduce(second);
                (Value::Pair(Rc::new(v), Rc::new(w)), Rc::new(Term::Pair(first, second)))
            }
            Term::First(whole) => {
                let (value, whole) = self.reduce(whole);
                (parts(&value).0.clone(), Rc::new(Term::First(whole)))
            }
            Term::Second(whole) => {
                let (value, whole) = self.reduce(whole);
                (parts(&value).1.clone(), Rc::new(Term::Second(whole)))
            }
            Term::Let(name, defining, body) => {
                let (value, defining) = self.reduce(defining);
                let (value, body) = self.reduce_with(name, value, body);
                (value, Rc::new(Term::Let(name.clone(), defining, body)))
            }
            Term::Feedback(undefined, name, defining, body) => {
                let (value, defining) = self.settled(undefined, name, defining);
                let (value, body) = self.reduce_with(name, value, body);
                let next = Term::Feedback(undefined.clone(), name.clone(), defining, body);
                (value, Rc::new(next))
            }
            Term::If(tested, pattern, then, other) => {
                let (v, tested) = self.reduce(tested);
                let (yes, then) = self.reduce(then);
                let (no, other) = self.reduce(other);
                let value = self.chosen(matches(pattern, &v), yes, no);
                (value, Rc::new(Term::If(tested, pattern.clone(), then, other)))
            }
            Term::Delay(held, part) => {
                let (value, part) = self.reduce(part);
                (held.clone(), Rc::new(Term::Delay(value, part)))
            }
        }
    }

    fn value(&self, name: &str) -> Value {
        let found = self.environment.iter().rev().find(|(other, _)| other == name);
        found.map_or_else(|| panic!("{name} is not in scope"), |(_, value)| value.clone())
    }

    fn reduce_with(&mut self, name: &str, value: Value, term: &Rc<Term>) -> (Value, Rc<Term>) {
        self.environment.push((name.to_string(), value));
        let reduced = self.reduce(term);
        self.environment.pop();
        reduced
    }

    /// The least value that a feedback's defining part gives back unchanged,
    /// reached from undefined; its next term is that of the settled value.
    fn settled(&mut self, undefined: &Value, name: &str, defining: &Rc<Term>) -> (Value, Rc<Term>) {
        let mut value = undefined.clone();
        loop {
            let (given, next) = self.reduce_with(name, value.clone(), defining);
            if given == value {
                return (value, next);
            }
            value = given;
        }
    }

    /// The value of an IF from those of its branches.
    fn chosen(&self, answer: Match, yes: Value, no: Value) -> Value {
        match answer {
            Match::Yes => yes,
            Match::No => no,
            Match::Undecided => self.undecided(&yes, &no),
        }
    }

    /// What an undecided IF gives.
    fn undecided(&self, yes: &Value, no: &Value) -> Value {
        match (yes, no) {
            (Value::Pair(a, b), Value::Pair(c, d)) => {
                let (first, second) = (self.undecided(a, c), self.undecided(b, d));
                Value::Pair(Rc::new(first), Rc::new(second))
            }
            _ if self.rule == Rule::Agreed && yes == no => yes.clone(),
            _ => Value::Undefined,
        }
    }
}

/// The two parts of a pair.
fn parts(value: &Value) -> (&Value, &Value) {
    match value {
        Value::Pair(first, second) => (first, second),
        value => panic!("{value:?} is no pair"),
    }
}

/// A pattern: yes if some alternative says yes, no if all say no.
fn matches(pattern: &[Pattern], value: &Value) -> Match {
    let answers: Vec<Match> = pattern.iter().map(|p| alternative_matches(p, value)).collect();
    if answers.contains(&Match::Yes) {
        Match::Yes
    } else if answers.iter().all(|answer| *answer == Match::No) {
        Match::No
    } else {
        Match::Undecided
    }
}

fn alternative_matches(pattern: &Pattern, value: &Value) -> Match {
    match (pattern, value) {
        (Pattern::Type, _) => Match::Yes,
        (Pattern::Constructor(_), Value::Undefined) => Match::Undecided,
        (Pattern::Constructor(wanted), Value::Constructor(name)) if wanted == name => Match::Yes,
        (Pattern::Constructor(_), _) => Match::No,
        (Pattern::Pair(first, second), value) => {
            let (v, w) = parts(value);
            match (matches(first, v), matches(second, w)) {
                (Match::No, _) | (_, Match::No) => Match::No,
                (Match::Yes, Match::Yes) => Match::Yes,
                _ => Match::Undecided,
            }
        }
    }
}
