//! Reads a text byte by byte: its tokens, or the first byte after which no
//! legal text begins with what was read. Code 13.

use super::positions::Position;
use super::prediction::Prediction;
use super::tokens::{is_blank, sign, Placed, Token, KEYWORDS, LONGEST_NAME, LONGEST_TEXT};

/// How a text leaves the grammar.
#[derive(Clone, Copy, PartialEq, Eq, PartialOrd, Ord, Debug)]
pub enum Way {
    /// By a letter of a word.
    InWord,
    /// By the 17th letter of a name.
    LongName,
    /// By a byte that ends a word too soon.
    AfterWord,
    /// By another byte.
    Byte,
    /// It ends too soon.
    Ended,
    /// It is too long.
    TooLong,
}

pub const WAYS: [(Way, &str); 6] = [
    (Way::InWord, "at a letter of a word"),
    (Way::LongName, "at the 17th letter of a name"),
    (Way::AfterWord, "at a byte that ends a word too soon"),
    (Way::Byte, "at another byte"),
    (Way::Ended, "at the end of the text"),
    (Way::TooLong, "at byte 65,535"),
];

/// Where and how a text leaves the grammar. The position is the one before the
/// word or the byte.
#[derive(Clone, Copy, PartialEq, Eq, Debug)]
pub struct Illegal {
    pub place: usize,
    pub way: Way,
    pub position: Position,
}

/// A run of letters that is not at its end, and the words it may become.
struct Word {
    place: usize,
    allowed: Vec<Token>,
}

/// The limits of texts, which a comparison can replace to make a mistake.
#[derive(Clone, Copy)]
pub struct Limits {
    pub text: usize,
    pub name: usize,
}

pub const LIMITS: Limits = Limits { text: LONGEST_TEXT, name: LONGEST_NAME };

pub struct Lexer<'a> {
    text: &'a [u8],
    longest_name: usize,
    prediction: Prediction,
    word: Option<Word>,
    tokens: Vec<Placed>,
}

/// The tokens of a text.
pub fn tokens(text: &[u8]) -> Result<Vec<Placed>, Illegal> {
    tokens_within(&LIMITS, text)
}

/// The tokens of a text within some limits.
pub fn tokens_within(limits: &Limits, text: &[u8]) -> Result<Vec<Placed>, Illegal> {
    let mut lexer = Lexer::new(limits, text);
    for place in 0..text.len().min(limits.text) {
        lexer.byte(place)?;
    }
    if text.len() > limits.text {
        return Err(lexer.illegal(limits.text, Way::TooLong));
    }
    lexer.end()
}

impl<'a> Lexer<'a> {
    pub fn new(limits: &Limits, text: &'a [u8]) -> Self {
        Lexer {
            text,
            longest_name: limits.name,
            prediction: Prediction::new(),
            word: None,
            tokens: Vec::new(),
        }
    }

    pub fn illegal(&self, place: usize, way: Way) -> Illegal {
        Illegal { place, way, position: self.prediction.position() }
    }

    /// Reads the byte at a place, those before it having been read.
    pub fn byte(&mut self, place: usize) -> Result<(), Illegal> {
        let byte = self.text[place];
        if byte.is_ascii_alphabetic() {
            return self.letter(place);
        }
        self.end_word(place)?;
        if is_blank(byte) {
            return Ok(());
        }
        match sign(byte) {
            Some(token) if self.prediction.takes(token) => {
                self.read(Placed { token, place, end: place + 1 });
                Ok(())
            }
            _ => Err(self.illegal(place, Way::Byte)),
        }
    }

    fn read(&mut self, placed: Placed) {
        self.prediction.read(placed.token, |_| {});
        self.tokens.push(placed);
    }

    fn letter(&mut self, place: usize) -> Result<(), Illegal> {
        let prediction = &self.prediction;
        let word = self.word.get_or_insert_with(|| {
            let words = KEYWORDS.iter().map(|(_, token)| *token).chain([Token::Name]);
            Word { place, allowed: words.filter(|token| prediction.takes(*token)).collect() }
        });
        let letters = &self.text[word.place..=place];
        if word.allowed.iter().any(|token| begins(*token, letters, self.longest_name)) {
            return Ok(());
        }
        let long = word.allowed.contains(&Token::Name)
            && letters.len() > self.longest_name
            && letters.iter().all(u8::is_ascii_lowercase);
        Err(self.illegal(place, if long { Way::LongName } else { Way::InWord }))
    }

    /// Ends the word before a place, if there is one.
    fn end_word(&mut self, place: usize) -> Result<(), Illegal> {
        let Some(word) = &self.word else { return Ok(()) };
        let letters = &self.text[word.place..place];
        let Some(token) = word.allowed.iter().find(|token| is_word(**token, letters)) else {
            return Err(self.illegal(place, Way::AfterWord));
        };
        let placed = Placed { token: *token, place: word.place, end: place };
        self.word = None;
        self.read(placed);
        Ok(())
    }

    fn end(mut self) -> Result<Vec<Placed>, Illegal> {
        let length = self.text.len();
        if self.end_word(length).is_err() || !self.prediction.may_end() {
            return Err(self.illegal(length, Way::Ended));
        }
        Ok(self.tokens)
    }
}

/// The letters of a keyword; none for a name.
fn keyword(token: Token) -> Option<&'static [u8]> {
    KEYWORDS.iter().find(|(_, t)| *t == token).map(|(letters, _)| letters.as_bytes())
}

/// Whether a word can begin with some letters.
fn begins(token: Token, letters: &[u8], longest_name: usize) -> bool {
    match keyword(token) {
        Some(keyword) => keyword.starts_with(letters),
        None => letters.len() <= longest_name && letters.iter().all(u8::is_ascii_lowercase),
    }
}

/// Whether letters that a word can begin with are all of it.
fn is_word(token: Token, letters: &[u8]) -> bool {
    match keyword(token) {
        Some(keyword) => keyword == letters,
        None => letters.iter().all(u8::is_ascii_lowercase),
    }
}

/// The position before each byte of a text that is legal up to there, and
/// whether the byte goes on with a word.
pub fn positions_in(text: &[u8]) -> Vec<(Position, bool)> {
    let mut lexer = Lexer::new(&LIMITS, text);
    let mut found = Vec::new();
    for place in 0..text.len() {
        found.push((lexer.prediction.position(), lexer.word.is_some()));
        if lexer.byte(place).is_err() {
            break;
        }
    }
    found
}
