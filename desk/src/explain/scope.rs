//! What is known where a name stands in a text.

use second::text::syntax::{Alternative, Constant, Definition, Expression, Name, Syntax};

/// What a name is there for.
#[derive(Clone, Copy, Debug)]
pub enum Role<'a> {
    /// It is declared, in the declaration of this type.
    Declares(&'a Name),
    /// A part of this pair type.
    PartOf(&'a Name),
    /// A type after INPUT, `?` or INIT.
    Type,
    /// A LET takes it.
    Let,
    Constant,
    Alternative,
    Expression,
}

/// What is known at a name.
pub struct Known<'a> {
    pub role: Role<'a>,
    pub types: Vec<&'a Name>,
    /// The constructors, each with its type.
    pub constructors: Vec<(&'a Name, &'a Name)>,
    /// The names of LETs, the innermost last.
    pub scope: Vec<&'a Name>,
    /// The LETs in whose defining parts the name stands, where theirs is not
    /// known.
    pub inside: Vec<&'a Name>,
}

enum Step<'a> {
    Visit(usize),
    Constant(usize),
    Alternative(usize),
    Name(&'a Name, Role<'a>),
    Enter(&'a Name),
    Leave,
    Inside(&'a Name),
    Outside,
}

struct Walk<'a> {
    syntax: &'a Syntax,
    place: usize,
    known: Known<'a>,
    /// The next step last.
    steps: Vec<Step<'a>>,
}

/// The name at a place, and what is known there.
pub fn find(syntax: &Syntax, place: usize) -> Option<(&Name, Known<'_>)> {
    let known = Known {
        role: Role::Type,
        types: Vec::new(),
        constructors: Vec::new(),
        scope: Vec::new(),
        inside: Vec::new(),
    };
    let mut walk = Walk { syntax, place, known, steps: Vec::new() };
    let name = walk.declarations().or_else(|| walk.expressions())?;
    Some((name, walk.known))
}

impl<'a> Walk<'a> {
    /// The name, if it stands at the place.
    fn at(&mut self, name: &'a Name, role: Role<'a>) -> Option<&'a Name> {
        if name.place != self.place {
            return None;
        }
        self.known.role = role;
        Some(name)
    }

    fn declarations(&mut self) -> Option<&'a Name> {
        for declaration in &self.syntax.declarations {
            let of = &declaration.name;
            let mut found = self.at(of, Role::Declares(of));
            match &declaration.definition {
                Definition::Flat(constructors) => {
                    for name in constructors {
                        found = found.or_else(|| self.at(name, Role::Declares(of)));
                        if found.is_some() {
                            return found;
                        }
                        self.known.constructors.push((name, of));
                    }
                }
                Definition::Pair(first, second) => {
                    found = found.or_else(|| self.at(first, Role::PartOf(of)));
                    found = found.or_else(|| self.at(second, Role::PartOf(of)));
                }
            }
            if found.is_some() {
                return found;
            }
            self.known.types.push(of);
        }
        self.at(&self.syntax.input, Role::Type)
    }

    fn then(&mut self, steps: impl IntoIterator<Item = Step<'a>>) {
        let before = self.steps.len();
        self.steps.extend(steps);
        self.steps[before..].reverse();
    }

    fn expressions(&mut self) -> Option<&'a Name> {
        self.steps.push(Step::Visit(self.syntax.root()));
        while let Some(step) = self.steps.pop() {
            match step {
                Step::Visit(number) => self.visit(number),
                Step::Constant(number) => self.constant(number),
                Step::Alternative(number) => self.alternative(number),
                Step::Name(name, role) => {
                    if let Some(found) = self.at(name, role) {
                        return Some(found);
                    }
                }
                Step::Enter(name) => self.known.scope.push(name),
                Step::Leave => {
                    self.known.scope.pop();
                }
                Step::Inside(name) => self.known.inside.push(name),
                Step::Outside => {
                    self.known.inside.pop();
                }
            }
        }
        None
    }

    fn visit(&mut self, number: usize) {
        let syntax = self.syntax;
        match &syntax.expressions[number] {
            Expression::Name(name) => self.then([Step::Name(name, Role::Expression)]),
            Expression::Undefined(name) => self.then([Step::Name(name, Role::Type)]),
            Expression::Pair(first, second) => {
                self.then([Step::Visit(*first), Step::Visit(*second)]);
            }
            Expression::First(part) | Expression::Second(part) => self.then([Step::Visit(*part)]),
            Expression::Let { name, defining, body } => self.then([
                Step::Name(name, Role::Let),
                Step::Inside(name),
                Step::Visit(*defining),
                Step::Outside,
                Step::Enter(name),
                Step::Visit(*body),
                Step::Leave,
            ]),
            Expression::Feedback { of, name, defining, body } => self.then([
                Step::Name(of, Role::Type),
                Step::Name(name, Role::Let),
                Step::Enter(name),
                Step::Visit(*defining),
                Step::Visit(*body),
                Step::Leave,
            ]),
            Expression::If { tested, pattern, then, other } => {
                let alternatives = pattern.iter().map(|number| Step::Alternative(*number));
                let branches = [Step::Visit(*then), Step::Visit(*other)];
                self.then([Step::Visit(*tested)].into_iter().chain(alternatives).chain(branches));
            }
            Expression::Delay { constant, part } => {
                self.then([Step::Constant(*constant), Step::Visit(*part)]);
            }
        }
    }

    fn constant(&mut self, number: usize) {
        let syntax = self.syntax;
        match &syntax.constants[number] {
            Constant::Constructor(name) => self.then([Step::Name(name, Role::Constant)]),
            Constant::Undefined(name) => self.then([Step::Name(name, Role::Type)]),
            Constant::Pair(first, second, _) => {
                self.then([Step::Constant(*first), Step::Constant(*second)]);
            }
        }
    }

    fn alternative(&mut self, number: usize) {
        let syntax = self.syntax;
        match &syntax.alternatives[number] {
            Alternative::Name(name) => self.then([Step::Name(name, Role::Alternative)]),
            Alternative::Pair(first, second) => {
                let all = |pattern: &'a [usize]| pattern.iter().map(|n| Step::Alternative(*n));
                self.then(all(first).chain(all(second)));
            }
        }
    }
}
