//! Values as people type them: `hi`, `?`, `(hi, lo)`; or the numbers of leaves.

use crate::near::nearest;
use crate::source::Piece;
use crate::types::Types;
use crate::wording::shown;

/// What is wrong with a value, and where in its bytes.
#[derive(Clone, PartialEq, Eq, Debug)]
pub struct Fault {
    pub piece: Piece,
    pub sentence: String,
}

/// How leaves are typed.
#[derive(Clone, Copy, PartialEq, Eq, Debug)]
pub enum Notation {
    /// By names and brackets; by numbers and brackets for a sheet.
    Names,
    /// One number a leaf, with blanks between them.
    Numbers,
}

pub struct Reader<'a> {
    pub types: Types<'a>,
    pub notation: Notation,
}

/// A word, a number or a sign of a value.
#[derive(Clone, Copy)]
struct Token<'a> {
    letters: &'a str,
    piece: Piece,
}

/// What is still to come of a value.
enum Next {
    Value(usize),
    Sign(&'static str),
}

/// The tokens of a value: runs of letters and digits, and signs.
fn tokens(text: &str) -> Vec<Token<'_>> {
    let mut tokens = Vec::new();
    let mut rest = text.char_indices().peekable();
    while let Some((at, first)) = rest.next() {
        if first.is_whitespace() {
            continue;
        }
        let mut end = at + first.len_utf8();
        let part = |c: char| c.is_alphanumeric() || c == '_';
        while part(first) && rest.peek().is_some_and(|(_, next)| part(*next)) {
            end += rest.next().map_or(0, |(_, next)| next.len_utf8());
        }
        tokens.push(Token { letters: &text[at..end], piece: Piece::new(at, end) });
    }
    tokens
}

impl Reader<'_> {
    /// The leaves of a value of a type.
    pub fn read(&self, text: &str, of: usize) -> Result<Vec<u8>, Fault> {
        let tokens = tokens(text);
        match self.notation {
            Notation::Names => self.value(&tokens, of, text.len()),
            Notation::Numbers => self.numbers(&tokens, of, text.len()),
        }
    }

    fn numbers(&self, tokens: &[Token], of: usize, end: usize) -> Result<Vec<u8>, Fault> {
        let asked = self.types.leaves(of);
        let needed = asked.len();
        if let Some(token) = tokens.get(needed) {
            let leaves =
                if needed == 1 { "one leaf".to_string() } else { format!("{needed} leaves") };
            let sentence = format!("the input has {leaves}, and here is one more");
            return Err(Fault { piece: token.piece, sentence });
        }
        if tokens.len() < needed {
            let sentence = format!("the input has {needed} leaves, and here are {}", tokens.len());
            return Err(Fault { piece: Piece::new(end, end), sentence });
        }
        tokens.iter().zip(asked).map(|(token, of)| self.number(token, of)).collect()
    }

    /// A leaf by its number.
    fn number(&self, token: &Token, of: usize) -> Result<u8, Fault> {
        let count = self.types.count(of);
        match token.letters.parse::<usize>() {
            Ok(number) if number <= count => Ok(number as u8),
            _ => {
                let (letters, of) = (shown(token.letters), self.types.label(of));
                let sentence = format!("{letters} is no leaf of {of}: 0 to {count}");
                Err(Fault { piece: token.piece, sentence })
            }
        }
    }

    /// A value by names, with brackets around pairs. The types that are still
    /// to come stand on a stack, with the signs between them.
    fn value(&self, tokens: &[Token], of: usize, end: usize) -> Result<Vec<u8>, Fault> {
        let mut leaves = Vec::new();
        let mut tokens = tokens.iter();
        let mut open = vec![Next::Value(of)];
        while let Some(next) = open.pop() {
            let Some(token) = tokens.next() else {
                return Err(self.ended(next, end));
            };
            match next {
                Next::Sign(sign) if token.letters == sign => {}
                Next::Sign(sign) => return Err(self.expected(token, format!("`{sign}`"))),
                Next::Value(of) if token.letters == "?" => {
                    leaves.extend(self.types.leaves(of).iter().map(|_| 0));
                }
                Next::Value(of) => match self.types.parts(of) {
                    Some((first, second)) if token.letters == "(" => {
                        let pair = [Next::Value(first), Next::Sign(","), Next::Value(second)];
                        open.push(Next::Sign(")"));
                        open.extend(pair.into_iter().rev());
                    }
                    Some((first, second)) => {
                        let parts = self.types.pair_label(first, second);
                        let of = self.types.label(of);
                        return Err(self.expected(token, format!("`?` or {of}, a pair {parts}")));
                    }
                    None => leaves.push(self.leaf(token, of)?),
                },
            }
        }
        match tokens.next() {
            None => Ok(leaves),
            Some(token) => Err(self.expected(token, "the end of the line or `*`".to_string())),
        }
    }

    fn ended(&self, next: Next, end: usize) -> Fault {
        let wanted = match next {
            Next::Value(of) => format!("a value of {}", self.types.label(of)),
            Next::Sign(sign) => format!("`{sign}`"),
        };
        let sentence = format!("the value ends too soon: expected {wanted}");
        Fault { piece: Piece::new(end, end), sentence }
    }

    fn expected(&self, token: &Token, wanted: String) -> Fault {
        let sentence = format!("expected {wanted}, found {}", shown(token.letters));
        Fault { piece: token.piece, sentence }
    }

    /// A leaf by the name of its constructor, or for a sheet by its number.
    fn leaf(&self, token: &Token, of: usize) -> Result<u8, Fault> {
        let names = self.types.constructors(of);
        if names.is_empty() {
            return self.number(token, of);
        }
        if let Some(at) = names.iter().position(|name| *name == token.letters) {
            return Ok((at + 1) as u8);
        }
        let label = self.types.label(of);
        let near = nearest(token.letters, names.iter().copied());
        let rest = match near {
            Some(near) => format!("; did you mean `{near}`?"),
            None if names.len() <= 8 => format!(": `?`, {}", names.join(", ")),
            None => String::new(),
        };
        let sentence = format!("{} is no constructor of {label}{rest}", shown(token.letters));
        Err(Fault { piece: token.piece, sentence })
    }
}
