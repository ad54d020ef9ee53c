//! What is still to come after some tokens of a text were read. Some legal text
//! goes on with a token exactly where the prediction takes it.

use super::grammar::{grammar, Item, Piece, Symbol};
use super::positions::Position;
use super::tokens::Token;

/// A stack of symbols still to come, the next one last.
pub struct Prediction {
    open: Vec<Item>,
}

impl Default for Prediction {
    fn default() -> Self {
        Prediction::new()
    }
}

impl Prediction {
    pub fn new() -> Prediction {
        Prediction { open: vec![Item { rule: 0, at: 0 }] }
    }

    /// Whether some legal text goes on with a token.
    pub fn takes(&self, token: Token) -> bool {
        for item in self.open.iter().rev() {
            match grammar().symbol(*item) {
                Symbol::Complete(_) => {}
                Symbol::Token(wanted) => return wanted == token,
                Symbol::Phrase(phrase) => match grammar().choice(phrase, token) {
                    None => return false,
                    Some(rule) if grammar().rules[rule].symbols.is_empty() => {}
                    Some(_) => return true,
                },
            }
        }
        false
    }

    /// Reads a token that it takes; tells the pieces complete before it.
    pub fn read(&mut self, token: Token, mut complete: impl FnMut(Piece)) {
        while let Some(item) = self.open.pop() {
            match grammar().symbol(item) {
                Symbol::Complete(piece) => complete(piece),
                Symbol::Token(wanted) => {
                    assert_eq!(wanted, token, "a token that may not come next");
                    return;
                }
                Symbol::Phrase(phrase) => {
                    let rule = grammar().choice(phrase, token);
                    let rule = rule.unwrap_or_else(|| panic!("{token:?} may not come next"));
                    let symbols = grammar().rules[rule].symbols.len();
                    self.open.extend((0..symbols).rev().map(|at| Item { rule, at }));
                }
            }
        }
        panic!("{token:?} after the end");
    }

    /// Whether the text may end here.
    pub fn may_end(&self) -> bool {
        self.open.iter().all(|item| grammar().can_be_empty(grammar().symbol(*item)))
    }

    /// Tells the pieces complete at the end of a text.
    pub fn end(self, mut complete: impl FnMut(Piece)) {
        for item in self.open.iter().rev() {
            if let Symbol::Complete(piece) = grammar().symbol(*item) {
                complete(piece);
            }
        }
    }

    /// The place in the grammar that the text has come to.
    pub fn position(&self) -> Position {
        Position::of(self.open.iter().rev().copied())
    }
}
