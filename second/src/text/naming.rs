//! The names of a text: what each stands for, or the first that breaks a rule.
//! Code 14. Names are judged by their place in the text.

use std::collections::HashMap;

use super::syntax::{Alternative, Constant, Definition, Expression, Name, Pattern, Syntax};
use super::tokens::INPUT;

/// A constructor: its type, and its number in it, from 1.
#[derive(Clone, Copy, PartialEq, Eq, Debug)]
pub struct Constructor {
    pub of: usize,
    pub number: usize,
}

/// What a name in an expression stands for.
#[derive(Clone, Copy, PartialEq, Eq, Debug)]
pub enum Meant {
    /// The name with so many others between.
    Distance(usize),
    Constructor(Constructor),
}

#[derive(Default)]
pub struct Names {
    /// The number of each type, from 1.
    pub types: HashMap<String, usize>,
    pub constructors: HashMap<String, Constructor>,
    /// What each expression that is a name stands for.
    pub meant: Vec<Option<Meant>>,
}

/// The rules of scope, which a comparison can replace to make a mistake.
#[derive(Clone, Copy)]
pub struct Rules {
    /// The one that is meant of the places where a name stands in scope, the
    /// innermost last.
    pub meant: fn(&mut dyn DoubleEndedIterator<Item = usize>) -> Option<usize>,
    /// The steps of a LET: its name, its defining part and its body.
    pub bind: for<'a> fn(&'a Name, usize, usize) -> Vec<Step<'a>>,
    /// Those of a LET REC after its type.
    pub bind_feedback: for<'a> fn(&'a Name, usize, usize) -> Vec<Step<'a>>,
}

pub const RULES: Rules =
    Rules { meant: |places| places.next_back(), bind: bound_in_body, bind_feedback: bound_in_both };

/// What the names of a text stand for, or the place of the first bad one.
pub fn resolve(syntax: &Syntax) -> Result<Names, usize> {
    resolve_by(&RULES, syntax)
}

/// The same by some rules of scope.
pub fn resolve_by(rules: &Rules, syntax: &Syntax) -> Result<Names, usize> {
    let mut names = declared(syntax)?;
    names.of_type(&syntax.input)?;
    names.meant = vec![None; syntax.expressions.len()];
    let input = Entry { letters: INPUT, counted: true };
    Walk { syntax, rules, names, scope: vec![input], to_do: vec![Step::Visit(syntax.root())] }
        .walk()
}

/// The types and constructors of a text.
fn declared(syntax: &Syntax) -> Result<Names, usize> {
    let mut names = Names::default();
    for (before, declaration) in syntax.declarations.iter().enumerate() {
        let of = before + 1;
        names.not_declared(&declaration.name)?;
        match &declaration.definition {
            Definition::Flat(constructors) => {
                for (before, name) in constructors.iter().enumerate() {
                    names.not_declared(name)?;
                    if name.letters == declaration.name.letters {
                        return Err(name.place);
                    }
                    let constructor = Constructor { of, number: before + 1 };
                    names.constructors.insert(name.letters.clone(), constructor);
                }
            }
            Definition::Pair(first, second) => {
                names.of_type(first)?;
                names.of_type(second)?;
            }
        }
        names.types.insert(declaration.name.letters.clone(), of);
    }
    Ok(names)
}

impl Names {
    /// A name that is free for a type, a constructor or a LET.
    fn not_declared(&self, name: &Name) -> Result<(), usize> {
        let taken = name.letters == INPUT
            || self.types.contains_key(&name.letters)
            || self.constructors.contains_key(&name.letters);
        if taken {
            Err(name.place)
        } else {
            Ok(())
        }
    }

    fn of_type(&self, name: &Name) -> Result<(), usize> {
        self.types.get(&name.letters).map(|_| ()).ok_or(name.place)
    }

    fn of_constructor(&self, name: &Name) -> Result<(), usize> {
        self.constructors.get(&name.letters).map(|_| ()).ok_or(name.place)
    }
}

/// A name in scope.
#[derive(Clone, Copy)]
pub struct Entry<'a> {
    pub letters: &'a str,
    /// Whether it counts in distances, as all do but for a mistake.
    pub counted: bool,
}

/// What is still to be done, in the order of the text.
pub enum Step<'a> {
    Visit(usize),
    Constant(usize),
    Alternative(usize),
    /// A LET takes the name.
    Take(&'a Name),
    Type(&'a Name),
    Enter(Entry<'a>),
    Leave,
}

impl<'a> Step<'a> {
    /// A name comes into scope.
    pub fn enter(name: &'a Name) -> Step<'a> {
        Step::Enter(Entry { letters: &name.letters, counted: true })
    }
}

/// A LET: its name is in scope in its body alone.
fn bound_in_body(name: &Name, defining: usize, body: usize) -> Vec<Step<'_>> {
    vec![Step::Take(name), Step::Visit(defining), Step::enter(name), Step::Visit(body), Step::Leave]
}

/// A LET REC: its name is in scope in both parts.
fn bound_in_both(name: &Name, defining: usize, body: usize) -> Vec<Step<'_>> {
    vec![Step::Take(name), Step::enter(name), Step::Visit(defining), Step::Visit(body), Step::Leave]
}

struct Walk<'a> {
    syntax: &'a Syntax,
    rules: &'a Rules,
    names: Names,
    /// The innermost last.
    scope: Vec<Entry<'a>>,
    /// The next step last.
    to_do: Vec<Step<'a>>,
}

impl<'a> Walk<'a> {
    fn walk(mut self) -> Result<Names, usize> {
        while let Some(step) = self.to_do.pop() {
            match step {
                Step::Visit(number) => self.visit(number)?,
                Step::Constant(number) => self.constant(number)?,
                Step::Alternative(number) => self.alternative(number)?,
                Step::Take(name) => self.names.not_declared(name)?,
                Step::Type(name) => self.names.of_type(name)?,
                Step::Enter(entry) => self.scope.push(entry),
                Step::Leave => {
                    self.scope.pop();
                }
            }
        }
        Ok(self.names)
    }

    fn then(&mut self, steps: impl IntoIterator<Item = Step<'a>>) {
        let before = self.to_do.len();
        self.to_do.extend(steps);
        self.to_do[before..].reverse();
    }

    fn visit(&mut self, number: usize) -> Result<(), usize> {
        let syntax = self.syntax;
        match &syntax.expressions[number] {
            Expression::Name(name) => {
                let meant = self.meant(&name.letters).ok_or(name.place)?;
                self.names.meant[number] = Some(meant);
            }
            Expression::Undefined(name) => self.names.of_type(name)?,
            Expression::Pair(first, second) => {
                self.then([Step::Visit(*first), Step::Visit(*second)]);
            }
            Expression::First(part) | Expression::Second(part) => self.then([Step::Visit(*part)]),
            Expression::Let { name, defining, body } => {
                self.then((self.rules.bind)(name, *defining, *body));
            }
            Expression::Feedback { of, name, defining, body } => {
                let bind = (self.rules.bind_feedback)(name, *defining, *body);
                self.then([Step::Type(of)].into_iter().chain(bind));
            }
            Expression::If { tested, pattern, then, other } => {
                let alternatives = pattern.iter().map(|number| Step::Alternative(*number));
                let branches = [Step::Visit(*then), Step::Visit(*other)];
                self.then([Step::Visit(*tested)].into_iter().chain(alternatives).chain(branches));
            }
            Expression::Delay { constant, part } => {
                self.then([Step::Constant(*constant), Step::Visit(*part)]);
            }
        }
        Ok(())
    }

    /// What a name in an expression stands for: the nearest one in scope, or a
    /// constructor.
    fn meant(&self, letters: &str) -> Option<Meant> {
        let mut places = (0..self.scope.len()).filter(|&at| self.scope[at].letters == letters);
        match (self.rules.meant)(&mut places) {
            Some(at) => {
                let nearer = self.scope[at + 1..].iter().filter(|entry| entry.counted).count();
                Some(Meant::Distance(nearer))
            }
            None => self.names.constructors.get(letters).copied().map(Meant::Constructor),
        }
    }

    fn constant(&mut self, number: usize) -> Result<(), usize> {
        match &self.syntax.constants[number] {
            Constant::Constructor(name) => self.names.of_constructor(name),
            Constant::Undefined(name) => self.names.of_type(name),
            Constant::Pair(first, second, _) => {
                self.then([Step::Constant(*first), Step::Constant(*second)]);
                Ok(())
            }
        }
    }

    fn alternative(&mut self, number: usize) -> Result<(), usize> {
        match &self.syntax.alternatives[number] {
            Alternative::Name(name) => {
                self.names.of_type(name).or_else(|_| self.names.of_constructor(name))
            }
            Alternative::Pair(first, second) => {
                let all = |pattern: &'a Pattern| pattern.iter().map(|n| Step::Alternative(*n));
                self.then(all(first).chain(all(second)));
                Ok(())
            }
        }
    }
}
