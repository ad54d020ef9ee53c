//! A circuit as a term over names, and its values: what the rules of 001 are
//! about. The value that a delay holds stands in the term.

use std::collections::HashMap;
use std::rc::Rc;

use super::syntax::{Alternative, Constant, Definition, Expression, Name, Syntax};

/// A value is undefined or a constructor where the type is flat, else a pair.
#[derive(Clone, PartialEq, Eq, Debug)]
pub enum Value {
    Undefined,
    Constructor(String),
    Pair(Rc<Value>, Rc<Value>),
}

#[derive(PartialEq, Eq, Debug)]
pub enum Pattern {
    Type,
    Constructor(String),
    Pair(Vec<Pattern>, Vec<Pattern>),
}

#[derive(PartialEq, Eq, Debug)]
pub enum Term {
    Constant(Value),
    Name(String),
    Pair(Rc<Term>, Rc<Term>),
    First(Rc<Term>),
    Second(Rc<Term>),
    Let(String, Rc<Term>, Rc<Term>),
    /// With the undefined value of its type.
    Feedback(Value, String, Rc<Term>, Rc<Term>),
    If(Rc<Term>, Rc<Vec<Pattern>>, Rc<Term>, Rc<Term>),
    Delay(Value, Rc<Term>),
}

/// The declarations of a text, and its expression. No deeper text is handed in
/// than an accepted sheet can be.
pub struct Circuit<'a> {
    syntax: &'a Syntax,
    types: HashMap<&'a str, &'a Definition>,
    /// The number of each constructor in its type.
    constructors: HashMap<&'a str, u8>,
}

impl<'a> Circuit<'a> {
    pub fn new(syntax: &'a Syntax) -> Self {
        let mut types = HashMap::new();
        let mut constructors = HashMap::new();
        for declaration in &syntax.declarations {
            types.insert(declaration.name.letters.as_str(), &declaration.definition);
            if let Definition::Flat(names) = &declaration.definition {
                for (before, name) in names.iter().enumerate() {
                    constructors.insert(name.letters.as_str(), (before + 1) as u8);
                }
            }
        }
        Circuit { syntax, types, constructors }
    }

    /// The undefined value of a type.
    fn undefined(&self, of: &Name) -> Value {
        self.value_of(of, &mut std::iter::repeat(0))
    }

    /// The value of a type with these leaves.
    fn value_of(&self, of: &Name, leaves: &mut impl Iterator<Item = u8>) -> Value {
        match self.types[of.letters.as_str()] {
            Definition::Flat(constructors) => match leaves.next() {
                None | Some(0) => Value::Undefined,
                Some(leaf) => {
                    Value::Constructor(constructors[usize::from(leaf) - 1].letters.clone())
                }
            },
            Definition::Pair(first, second) => {
                let first = self.value_of(first, leaves);
                Value::Pair(Rc::new(first), Rc::new(self.value_of(second, leaves)))
            }
        }
    }

    /// The value of the input with these leaves.
    pub fn input(&self, leaves: &[u8]) -> Value {
        self.value_of(&self.syntax.input, &mut leaves.iter().copied())
    }

    /// The leaves of a value.
    pub fn leaves(&self, value: &Value) -> Vec<u8> {
        match value {
            Value::Undefined => vec![0],
            Value::Constructor(name) => vec![self.constructors[name.as_str()]],
            Value::Pair(first, second) => [self.leaves(first), self.leaves(second)].concat(),
        }
    }

    /// The whole expression as a term.
    pub fn term(&self) -> Rc<Term> {
        self.expression(self.syntax.root())
    }

    fn expression(&self, number: usize) -> Rc<Term> {
        let part = |number: &usize| self.expression(*number);
        Rc::new(match &self.syntax.expressions[number] {
            Expression::Name(name) if self.constructors.contains_key(name.letters.as_str()) => {
                Term::Constant(Value::Constructor(name.letters.clone()))
            }
            Expression::Name(name) => Term::Name(name.letters.clone()),
            Expression::Undefined(of) => Term::Constant(self.undefined(of)),
            Expression::Pair(first, second) => Term::Pair(part(first), part(second)),
            Expression::First(of) => Term::First(part(of)),
            Expression::Second(of) => Term::Second(part(of)),
            Expression::Let { name, defining, body } => {
                Term::Let(name.letters.clone(), part(defining), part(body))
            }
            Expression::Feedback { of, name, defining, body } => {
                let undefined = self.undefined(of);
                Term::Feedback(undefined, name.letters.clone(), part(defining), part(body))
            }
            Expression::If { tested, pattern, then, other } => {
                let pattern = Rc::new(self.pattern(pattern));
                Term::If(part(tested), pattern, part(then), part(other))
            }
            Expression::Delay { constant, part: delayed } => {
                Term::Delay(self.constant(*constant), part(delayed))
            }
        })
    }

    fn constant(&self, number: usize) -> Value {
        match &self.syntax.constants[number] {
            Constant::Constructor(name) => Value::Constructor(name.letters.clone()),
            Constant::Undefined(of) => self.undefined(of),
            Constant::Pair(first, second, _) => {
                Value::Pair(Rc::new(self.constant(*first)), Rc::new(self.constant(*second)))
            }
        }
    }

    fn pattern(&self, alternatives: &[usize]) -> Vec<Pattern> {
        let alternative = |number: &usize| match &self.syntax.alternatives[*number] {
            Alternative::Name(name) if self.types.contains_key(name.letters.as_str()) => {
                Pattern::Type
            }
            Alternative::Name(name) => Pattern::Constructor(name.letters.clone()),
            Alternative::Pair(first, second) => {
                Pattern::Pair(self.pattern(first), self.pattern(second))
            }
        };
        alternatives.iter().map(alternative).collect()
    }
}
