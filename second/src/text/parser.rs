//! Makes the abstract syntax of a text from its tokens. No recursion: a text
//! may nest very deeply.

use super::grammar::Piece;
use super::prediction::Prediction;
use super::syntax::{
    Alternative, Constant, Declaration, Definition, Expression, Name, Pattern, Syntax,
};
use super::tokens::{Placed, Token};

/// The pieces read and not yet part of a whole, the latest last.
struct Parser {
    names: Vec<Name>,
    input: Option<Name>,
    declarations: Vec<Declaration>,
    expressions: Vec<Expression>,
    constants: Vec<Constant>,
    alternatives: Vec<Alternative>,
    /// The numbers of expressions and constants that are no part yet.
    open_expressions: Vec<usize>,
    open_constants: Vec<usize>,
    /// Patterns whose end was not read, and those that are no part yet.
    open_patterns: Vec<Pattern>,
    patterns: Vec<Pattern>,
    /// The places of the brackets not closed, and of the last one closed.
    brackets: Vec<usize>,
    closed: usize,
}

/// The abstract syntax of a text with these tokens, which are legal.
pub fn parse(text: &[u8], tokens: &[Placed]) -> Syntax {
    let mut parser = Parser::new();
    let mut prediction = Prediction::new();
    for placed in tokens {
        prediction.read(placed.token, |piece| parser.complete(piece));
        parser.read(text, placed);
    }
    prediction.end(|piece| parser.complete(piece));
    Syntax {
        declarations: parser.declarations,
        input: parser.input.unwrap_or_else(|| panic!("no input type")),
        expressions: parser.expressions,
        constants: parser.constants,
        alternatives: parser.alternatives,
    }
}

/// The latest piece, which the grammar has promised.
fn taken<T>(pieces: &mut Vec<T>) -> T {
    pieces.pop().unwrap_or_else(|| panic!("a piece is missing"))
}

impl Parser {
    fn new() -> Parser {
        Parser {
            names: Vec::new(),
            input: None,
            declarations: Vec::new(),
            expressions: Vec::new(),
            constants: Vec::new(),
            alternatives: Vec::new(),
            open_expressions: Vec::new(),
            open_constants: Vec::new(),
            open_patterns: Vec::new(),
            patterns: Vec::new(),
            brackets: Vec::new(),
            closed: 0,
        }
    }

    fn read(&mut self, text: &[u8], placed: &Placed) {
        match placed.token {
            Token::Name => {
                let letters = String::from_utf8_lossy(&text[placed.place..placed.end]).into_owned();
                self.names.push(Name { letters, place: placed.place });
            }
            Token::Open => self.brackets.push(placed.place),
            Token::Close => self.closed = taken(&mut self.brackets),
            _ => {}
        }
    }

    fn complete(&mut self, piece: Piece) {
        match piece {
            Piece::TypeName | Piece::Constructor | Piece::PairType | Piece::InputType => {
                self.declaring(piece)
            }
            Piece::ConstantName | Piece::ConstantUndefined | Piece::ConstantPair => {
                self.constant(piece)
            }
            Piece::PatternBegins | Piece::PatternEnds => self.pattern(piece),
            Piece::AlternativeName | Piece::AlternativePair => self.alternative(piece),
            _ => {
                let expression = self.expression(piece);
                self.expressions.push(expression);
                self.open_expressions.push(self.expressions.len() - 1);
            }
        }
    }

    fn declaring(&mut self, piece: Piece) {
        let name = taken(&mut self.names);
        if piece == Piece::InputType {
            self.input = Some(name);
            return;
        }
        if piece == Piece::TypeName {
            self.declarations.push(Declaration { name, definition: Definition::Flat(Vec::new()) });
            return;
        }
        let Some(declaration) = self.declarations.last_mut() else { return };
        match &mut declaration.definition {
            Definition::Flat(constructors) if piece == Piece::Constructor => {
                constructors.push(name);
            }
            definition => *definition = Definition::Pair(taken(&mut self.names), name),
        }
    }

    fn expression(&mut self, piece: Piece) -> Expression {
        let mut last = || taken(&mut self.open_expressions);
        match piece {
            Piece::Name => Expression::Name(taken(&mut self.names)),
            Piece::Undefined => Expression::Undefined(taken(&mut self.names)),
            Piece::FirstPart => Expression::First(last()),
            Piece::SecondPart => Expression::Second(last()),
            Piece::Pair => {
                let second = last();
                Expression::Pair(last(), second)
            }
            Piece::Let => {
                let body = last();
                Expression::Let { name: taken(&mut self.names), defining: last(), body }
            }
            Piece::Feedback => {
                let (body, defining) = (last(), last());
                let name = taken(&mut self.names);
                Expression::Feedback { of: taken(&mut self.names), name, defining, body }
            }
            Piece::If => {
                let (other, then, tested) = (last(), last(), last());
                Expression::If { tested, pattern: taken(&mut self.patterns), then, other }
            }
            Piece::Delay => {
                Expression::Delay { constant: taken(&mut self.open_constants), part: last() }
            }
            piece => panic!("{piece:?} is no expression"),
        }
    }

    fn constant(&mut self, piece: Piece) {
        let constant = match piece {
            Piece::ConstantName => Constant::Constructor(taken(&mut self.names)),
            Piece::ConstantUndefined => Constant::Undefined(taken(&mut self.names)),
            _ => {
                let second = taken(&mut self.open_constants);
                Constant::Pair(taken(&mut self.open_constants), second, self.closed)
            }
        };
        self.constants.push(constant);
        self.open_constants.push(self.constants.len() - 1);
    }

    fn pattern(&mut self, piece: Piece) {
        if piece == Piece::PatternBegins {
            self.open_patterns.push(Pattern::new());
        } else {
            self.patterns.push(taken(&mut self.open_patterns));
        }
    }

    fn alternative(&mut self, piece: Piece) {
        let alternative = if piece == Piece::AlternativeName {
            Alternative::Name(taken(&mut self.names))
        } else {
            let second = taken(&mut self.patterns);
            Alternative::Pair(taken(&mut self.patterns), second)
        };
        self.alternatives.push(alternative);
        let number = self.alternatives.len() - 1;
        self.open_patterns.iter_mut().last().into_iter().for_each(|chain| chain.push(number));
    }
}
