//! Code 7: which type rule is broken, with both types named.

use second::records::{
    Record, A, B, C, CONSTANT, CONSTRUCTOR, D, DELAY, FEEDBACK, FIRST, IF, KIND, LET, NAME, NEXT,
    PAIR, PAIR_TYPE, SECOND, WHOLE,
};
use second::text::syntax::Expression;

use crate::circuit::Circuit;
use crate::layout::Node;
use crate::message::{Kind, Message};
use crate::types::Types;

/// The first record that breaks a type rule, why, and an alternative to point
/// at.
struct Cause {
    record: usize,
    sentence: String,
    alternative: Option<usize>,
}

/// What is wrong at a record that the check refuses by 7.
pub fn explain(circuit: &Circuit, place: usize) -> Vec<Message> {
    let types = circuit.types();
    let input = usize::from(circuit.records[0][A]);
    let mut judge = Judge { circuit, types, scope: vec![input] };
    let cause = match judge.judge(usize::from(circuit.records[0][B])) {
        Err(cause) if cause.record == place => cause,
        _ => Cause {
            record: place,
            sentence: "a type rule is broken".to_string(),
            alternative: None,
        },
    };
    let error = Message::error(circuit.place(place), cause.sentence);
    let note = cause.alternative.map(|alternative| {
        Message::new(Kind::Note, circuit.place(alternative), "this alternative")
    });
    [Some(error), note].into_iter().flatten().collect()
}

struct Judge<'a> {
    circuit: &'a Circuit,
    types: Types<'a>,
    /// The types of the names in scope, the innermost last.
    scope: Vec<usize>,
}

type Judged = Result<usize, Cause>;

impl Judge<'_> {
    fn refuse(&self, record: usize, sentence: String) -> Judged {
        Err(Cause { record, sentence, alternative: None })
    }

    fn label(&self, of: usize) -> String {
        self.types.label(of)
    }

    /// The type of an expression, parts before the whole.
    fn judge(&mut self, number: usize) -> Judged {
        let record = self.circuit.records[number];
        let word = |at: usize| usize::from(record[at]);
        match record[KIND] {
            CONSTANT => self.leaves(number, word(A)).map_or(Ok(word(A)), Err),
            NAME => self.name(number, word(A)),
            PAIR => {
                let (first, second) = (self.judge(word(A))?, self.judge(word(B))?);
                self.pair(number, first, second)
            }
            FIRST | SECOND => {
                let whole = self.judge(word(A))?;
                self.part(number, record, whole)
            }
            LET => {
                let defining = self.judge(word(A))?;
                self.within(defining, word(B))
            }
            FEEDBACK => {
                let defining = self.within(word(A), word(B))?;
                let body = self.within(word(A), word(C))?;
                self.feedback(number, word(A), defining, body)
            }
            IF => self.choice(number, record),
            DELAY => {
                let part = self.judge(word(C))?;
                if let Some(cause) = self.leaves(number, word(A)) {
                    return Err(cause);
                }
                self.delay(number, word(A), part)
            }
            _ => self.refuse(number, "a type rule is broken".to_string()),
        }
    }

    /// The type of an expression with one more name in scope.
    fn within(&mut self, of: usize, number: usize) -> Judged {
        self.scope.push(of);
        let judged = self.judge(number);
        self.scope.pop();
        judged
    }

    fn name(&self, number: usize, distance: usize) -> Judged {
        match self.scope.len().checked_sub(distance + 1) {
            Some(at) => Ok(self.scope[at]),
            None => {
                let known = self.scope.len();
                let names = if known == 1 { "name is" } else { "names are" };
                self.refuse(number, format!("name {distance} is out of scope: {known} {names} in"))
            }
        }
    }

    fn pair(&self, number: usize, first: usize, second: usize) -> Judged {
        let parts = [first as u16, second as u16];
        let found = self
            .circuit
            .records
            .iter()
            .position(|record| record[KIND] == PAIR_TYPE && [record[A], record[B]] == parts);
        match found {
            Some(of) => Ok(of),
            None => {
                let parts = self.types.pair_label(first, second);
                let add = match self.circuit.layout {
                    Some(_) => format!("; add `TYPE .. = {parts} IN`"),
                    None => String::new(),
                };
                self.refuse(number, format!("no pair type {parts} is declared{add}"))
            }
        }
    }

    fn part(&self, number: usize, record: Record, whole: usize) -> Judged {
        let first = record[KIND] == FIRST;
        match self.types.parts(whole) {
            Some((one, _)) if first => Ok(one),
            Some((_, two)) => Ok(two),
            None => {
                let index = if first { "`[1]`" } else { "`[2]`" };
                let whole = self.label(whole);
                self.refuse(number, format!("{index} is a part of a pair, and this is {whole}"))
            }
        }
    }

    fn feedback(&self, number: usize, of: usize, defining: usize, body: usize) -> Judged {
        if of == defining {
            return Ok(body);
        }
        let name = match self.expression(number) {
            Some(Expression::Feedback { name, .. }) => format!("`{}`", name.letters),
            _ => "the feedback".to_string(),
        };
        let (of, defining) = (self.label(of), self.label(defining));
        self.refuse(number, format!("{name} is {of}, and its defining part is {defining}"))
    }

    fn delay(&self, number: usize, of: usize, part: usize) -> Judged {
        if of == part {
            return Ok(of);
        }
        let (of, part) = (self.label(of), self.label(part));
        self.refuse(number, format!("the constant is {of}, and the delayed part is {part}"))
    }

    fn choice(&mut self, number: usize, record: Record) -> Judged {
        let tested = self.judge(usize::from(record[A]))?;
        let context = format!("the tested part is {}", self.label(tested));
        if let Some((alternative, fault)) = self.pattern(record[D], tested, &context) {
            let sentence = format!("the pattern does not fit: {fault}");
            return Err(Cause { record: number, sentence, alternative: Some(alternative) });
        }
        let then = self.judge(usize::from(record[B]))?;
        let other = self.judge(usize::from(record[C]))?;
        if then == other {
            return Ok(then);
        }
        let (then, other) = (self.label(then), self.label(other));
        self.refuse(number, format!("the branches differ: THEN is {then}, ELSE is {other}"))
    }

    /// The expression of the text that a record is.
    fn expression(&self, number: usize) -> Option<&Expression> {
        let layout = self.circuit.layout.as_ref()?;
        match layout.nodes.get(number)? {
            Node::Expression(number) => layout.syntax.expressions.get(*number),
            _ => None,
        }
    }

    /// The first alternative of a chain that is not of a type, and why.
    fn pattern(&self, first: u16, of: usize, context: &str) -> Option<(usize, String)> {
        let mut next = usize::from(first);
        while next != 0 {
            let record = self.circuit.records[next];
            let asked = usize::from(record[A]);
            match record[KIND] {
                WHOLE if asked != of => {
                    let asked = self.label(asked);
                    return Some((next, format!("{context}, and this is the type {asked}")));
                }
                CONSTRUCTOR if asked != of => {
                    let constructor = self.constructor(asked, record[B]);
                    let asked = self.label(asked);
                    return Some((next, format!("{context}, {constructor} is of {asked}")));
                }
                WHOLE | CONSTRUCTOR => {}
                _ => match self.types.parts(of) {
                    None => return Some((next, format!("{context}, which is no pair"))),
                    Some((one, two)) => {
                        let part = |which: &str, part: usize| {
                            let (of, part) = (self.label(of), self.label(part));
                            format!("the {which} part of {of} is {part}")
                        };
                        let fault = self.pattern(record[A], one, &part("first", one));
                        let fault =
                            fault.or_else(|| self.pattern(record[B], two, &part("second", two)));
                        if fault.is_some() {
                            return fault;
                        }
                    }
                },
            }
            next = usize::from(record[NEXT]);
        }
        None
    }

    fn constructor(&self, of: usize, number: u16) -> String {
        let names = self.types.constructors(of);
        match names.get(usize::from(number).wrapping_sub(1)) {
            Some(name) => format!("`{name}`"),
            None => format!("constructor {number}"),
        }
    }

    /// What is wrong with the leaves of a constant or a delay.
    fn leaves(&self, number: usize, of: usize) -> Option<Cause> {
        let asked = self.types.leaves(of);
        let records = &self.circuit.records;
        let first = usize::from(records[number][B]);
        let chain: Vec<usize> = std::iter::successors(Some(first), |leaf| {
            Some(usize::from(records[*leaf][NEXT])).filter(|next| *next != 0)
        })
        .collect();
        let cause = |sentence| Some(Cause { record: number, sentence, alternative: None });
        if chain.len() != asked.len() {
            let (given, needed) = (chain.len(), asked.len());
            return cause(format!("there are {given} leaves, and {} has {needed}", self.label(of)));
        }
        let above = chain
            .iter()
            .zip(&asked)
            .find(|(leaf, of)| usize::from(records[**leaf][A]) > self.types.count(**of));
        above.and_then(|(leaf, of)| {
            let (value, count) = (records[*leaf][A], self.types.count(*of));
            let of = self.label(*of);
            cause(format!("leaf record {leaf} is {value}, and {of} has {count} constructors"))
        })
    }
}
