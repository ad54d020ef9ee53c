//! The tokens of a legal beginning of a text, and the brackets open there.

use second::text::tokens::{is_blank, KEYWORDS};

use crate::source::Piece;

#[derive(Clone, Copy, PartialEq, Eq, Debug)]
pub struct Word<'a> {
    pub letters: &'a str,
    pub piece: Piece,
}

/// The words and signs of a text up to a byte.
pub fn words(text: &[u8]) -> Vec<Word<'_>> {
    let mut words = Vec::new();
    let mut at = 0;
    while at < text.len() {
        let length = match text[at] {
            byte if is_blank(byte) => {
                at += 1;
                continue;
            }
            byte if byte.is_ascii_alphabetic() => {
                text[at..].iter().take_while(|byte| byte.is_ascii_alphabetic()).count()
            }
            _ => 1,
        };
        let letters = std::str::from_utf8(&text[at..at + length]).unwrap_or("");
        words.push(Word { letters, piece: Piece::new(at, at + length) });
        at += length;
    }
    words
}

/// A round bracket that is not closed, with the keyword before it and the one
/// after it.
#[derive(Clone, Copy, PartialEq, Eq, Debug)]
pub struct Bracket<'a> {
    pub before: &'a str,
    pub keyword: Option<&'a str>,
    pub piece: Piece,
}

impl Bracket<'_> {
    /// What is open, for a note.
    pub fn sentence(&self) -> String {
        format!("this {} is still open", self.keyword.unwrap_or("bracket"))
    }
}

/// The brackets that are open after some words, the innermost last.
pub fn open<'a>(words: &[Word<'a>]) -> Vec<Bracket<'a>> {
    let mut open = Vec::new();
    for (at, word) in words.iter().enumerate() {
        match word.letters {
            "(" => {
                let before = at.checked_sub(1).map_or("", |at| words[at].letters);
                let after = words.get(at + 1).filter(|word| is_keyword(word.letters));
                let end = after.map_or(word.piece.end, |word| word.piece.end);
                let piece = Piece::new(word.piece.place, end);
                open.push(Bracket { before, keyword: after.map(|word| word.letters), piece });
            }
            ")" => {
                open.pop();
            }
            _ => {}
        }
    }
    open
}

pub fn is_keyword(letters: &str) -> bool {
    KEYWORDS.iter().any(|(keyword, _)| *keyword == letters)
}
