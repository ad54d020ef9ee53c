//! The abstract syntax of a text. Expressions, constants and alternatives are
//! named by their numbers; a part has a lower number than its whole.

/// A name where it stands in the text.
#[derive(Clone, PartialEq, Eq, Debug)]
pub struct Name {
    pub letters: String,
    pub place: usize,
}

#[derive(Clone, PartialEq, Eq, Debug)]
pub enum Definition {
    Flat(Vec<Name>),
    Pair(Name, Name),
}

#[derive(Clone, PartialEq, Eq, Debug)]
pub struct Declaration {
    pub name: Name,
    pub definition: Definition,
}

#[derive(Clone, PartialEq, Eq, Debug)]
pub enum Expression {
    /// A constructor, a LET's name or the input.
    Name(Name),
    /// Undefined, of a type.
    Undefined(Name),
    Pair(usize, usize),
    First(usize),
    Second(usize),
    Let {
        name: Name,
        defining: usize,
        body: usize,
    },
    /// LET INIT ? of REC name = defining IN body.
    Feedback {
        of: Name,
        name: Name,
        defining: usize,
        body: usize,
    },
    If {
        tested: usize,
        pattern: Pattern,
        then: usize,
        other: usize,
    },
    Delay {
        constant: usize,
        part: usize,
    },
}

/// The constant of a DELAY.
#[derive(Clone, PartialEq, Eq, Debug)]
pub enum Constant {
    Constructor(Name),
    Undefined(Name),
    /// With the place of its bracket.
    Pair(usize, usize, usize),
}

/// Its alternatives.
pub type Pattern = Vec<usize>;

#[derive(Clone, PartialEq, Eq, Debug)]
pub enum Alternative {
    /// A type or a constructor.
    Name(Name),
    Pair(Pattern, Pattern),
}

#[derive(Clone, PartialEq, Eq, Debug)]
pub struct Syntax {
    pub declarations: Vec<Declaration>,
    /// The type after INPUT.
    pub input: Name,
    pub expressions: Vec<Expression>,
    pub constants: Vec<Constant>,
    pub alternatives: Vec<Alternative>,
}

impl Syntax {
    /// The whole expression, which is complete last.
    pub fn root(&self) -> usize {
        self.expressions.len() - 1
    }
}
