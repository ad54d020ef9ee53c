//! Where the expressions, constants and alternatives of a text stand in it.
//! They have the numbers that `second`'s parser gives them: each gets its number
//! when it is complete.

use second::text::grammar::Piece as Part;
use second::text::prediction::Prediction;
use second::text::tokens::{Placed, Token};

use crate::source::Piece;

/// Where an expression, a constant or an alternative stands.
#[derive(Clone, Copy, PartialEq, Eq, Debug)]
pub struct Span {
    /// All of it.
    pub whole: Piece,
    /// What a message underlines: a name, `?t`, `[1]`, a bracket with the
    /// keyword after it.
    pub head: Piece,
}

#[derive(Default, Debug)]
pub struct Places {
    pub input: usize,
    pub expressions: Vec<Span>,
    pub constants: Vec<Span>,
    pub alternatives: Vec<Span>,
}

struct Walk {
    places: Places,
    /// The brackets that are open, and the last one closed.
    open: Vec<Piece>,
    closed: Piece,
    /// The first bytes of expressions that are no part of another one yet.
    starts: Vec<usize>,
    name: Piece,
    question: usize,
    index: usize,
    /// The end of the last token, and whether it was an opening bracket.
    end: usize,
    after_open: bool,
}

/// The places of a text with these tokens, which are legal.
pub fn places(tokens: &[Placed]) -> Places {
    let nowhere = Piece::new(0, 0);
    let mut walk = Walk {
        places: Places::default(),
        open: Vec::new(),
        closed: nowhere,
        starts: Vec::new(),
        name: nowhere,
        question: 0,
        index: 0,
        end: 0,
        after_open: false,
    };
    let mut prediction = Prediction::new();
    for placed in tokens {
        prediction.read(placed.token, |part| walk.complete(part, placed.end));
        walk.read(placed);
    }
    let end = walk.end;
    prediction.end(|part| walk.complete(part, end));
    walk.places
}

impl Walk {
    fn read(&mut self, placed: &Placed) {
        match placed.token {
            Token::Name => self.name = Piece::new(placed.place, placed.end),
            Token::Question => self.question = placed.place,
            Token::OpenIndex => self.index = placed.place,
            Token::Input => self.places.input = placed.place,
            Token::Open => self.open.push(Piece::new(placed.place, placed.end)),
            Token::Close => self.closed = self.open.pop().unwrap_or(self.closed),
            Token::Let | Token::If | Token::Delay if self.after_open => {
                if let Some(bracket) = self.open.last_mut() {
                    bracket.end = placed.end;
                }
            }
            _ => {}
        }
        self.end = placed.end;
        self.after_open = placed.token == Token::Open;
    }

    /// A part is complete; `next` is the end of the token that comes next.
    fn complete(&mut self, part: Part, next: usize) {
        let undefined = Piece::new(self.question, self.name.end);
        match part {
            Part::Name => self.expression(self.name, self.name, 0),
            Part::Undefined => self.expression(undefined, undefined, 0),
            Part::FirstPart | Part::SecondPart => {
                let start = self.starts.last().copied().unwrap_or(self.index);
                let head = Piece::new(self.index, next);
                self.expression(head, Piece::new(start, next), 1);
            }
            Part::Pair => self.bracket(2, self.closed, self.end),
            Part::If => self.bracket(3, self.closed, self.end),
            Part::Delay => self.bracket(1, self.closed, self.end),
            Part::Let | Part::Feedback => {
                // The bracket is closed by the token that comes next.
                let bracket = self.open.last().copied().unwrap_or(self.closed);
                self.bracket(2, bracket, next);
            }
            Part::ConstantName => self.constant(self.name),
            Part::ConstantUndefined => self.constant(undefined),
            Part::ConstantPair => self.constant(self.closed),
            Part::AlternativeName => self.alternative(self.name),
            Part::AlternativePair => self.alternative(self.closed),
            _ => {}
        }
    }

    fn bracket(&mut self, parts: usize, head: Piece, end: usize) {
        self.expression(head, Piece::new(head.place, end), parts);
    }

    /// An expression with so many parts that are expressions.
    fn expression(&mut self, head: Piece, whole: Piece, parts: usize) {
        self.starts.truncate(self.starts.len().saturating_sub(parts));
        self.starts.push(whole.place);
        self.places.expressions.push(Span { whole, head });
    }

    fn constant(&mut self, head: Piece) {
        self.places.constants.push(Span { whole: Piece::new(head.place, self.end), head });
    }

    fn alternative(&mut self, head: Piece) {
        self.places.alternatives.push(Span { whole: Piece::new(head.place, self.end), head });
    }
}
