//! The sentence about a place at which a text leaves the grammar.

use second::text::tokens::LONGEST_NAME;

use super::tokens::{is_keyword, Bracket, Word};
use crate::message::{Mark, Message, Place};
use crate::near::nearest;
use crate::source::{Piece, Source};
use crate::wording::shown;

/// The tokens, each as it is tried and as a message shows it.
pub const TOKENS: [(&str, &[&str]); 22] = [
    ("x", &["a name"]),
    ("?", &["`?`"]),
    ("(", &["`(`"]),
    ("TYPE", &["`TYPE`"]),
    ("INPUT", &["`INPUT`"]),
    ("LET", &["`LET`"]),
    ("IF", &["`IF`"]),
    ("DELAY", &["`DELAY`"]),
    ("INIT", &["`INIT`"]),
    ("REC", &["`REC`"]),
    ("MATCHES", &["`MATCHES`"]),
    ("THEN", &["`THEN`"]),
    ("ELSE", &["`ELSE`"]),
    ("IN", &["`IN`"]),
    ("=", &["`=`"]),
    ("|", &["`|`"]),
    (",", &["`,`"]),
    (")", &["`)`"]),
    ("[", &["`[1]`", "`[2]`"]),
    ("1", &["`1`"]),
    ("2", &["`2`"]),
    ("]", &["`]`"]),
];

/// Where a text leaves the grammar.
pub struct Fault<'a> {
    pub source: &'a Source,
    pub place: usize,
    /// The word or sign there.
    pub found: Piece,
    /// The words before it, and the brackets open there.
    pub before: Vec<Word<'a>>,
    pub open: Vec<Bracket<'a>>,
    /// The tokens that may stand there, as they were tried.
    pub expected: Vec<&'static str>,
    /// Whether the text is whole before it.
    pub whole: bool,
}

impl Fault<'_> {
    fn expects(&self, token: &str) -> bool {
        self.expected.contains(&token)
    }

    fn letters(&self) -> String {
        self.source.letters(self.found)
    }

    /// The word so many words before the fault.
    fn back(&self, words: usize) -> &str {
        let at = self.before.len().checked_sub(words);
        at.and_then(|at| self.before.get(at)).map_or("", |word| word.letters)
    }

    fn after_input(&self) -> bool {
        self.before.iter().any(|word| word.letters == "INPUT")
    }

    fn error(&self, sentence: impl Into<String>) -> Message {
        Message::error(Place::At(Mark { caret: self.place, around: self.found }), sentence)
    }

    /// The innermost bracket that is open.
    fn note(&self) -> Option<Message> {
        self.open.last().map(|bracket| Message::note(bracket.piece, bracket.sentence()))
    }

    pub fn explain(&self) -> Vec<Message> {
        if self.place == self.source.bytes.len() {
            return self.ended();
        }
        if self.whole {
            return vec![self.error(self.after_the_end())];
        }
        if let Some(sentence) = self.index() {
            return vec![self.error(sentence)];
        }
        if let Some((around, sentence)) = self.name() {
            let mark = Mark { caret: self.place, around };
            return vec![Message::error(Place::At(mark), sentence)];
        }
        if let Some(sentence) = self.word() {
            return vec![self.error(sentence)];
        }
        self.sign().unwrap_or_else(|| self.general())
    }

    /// The tokens that may stand there.
    fn list(&self) -> String {
        let mut shown: Vec<&str> = Vec::new();
        for (token, words) in TOKENS {
            if self.expects(token) {
                shown.extend(words);
            }
        }
        match shown.split_last() {
            None => "another token".to_string(),
            Some((last, [])) => last.to_string(),
            Some((last, others)) => format!("{} or {last}", others.join(", ")),
        }
    }

    fn ended(&self) -> Vec<Message> {
        let cut = self.found.place < self.place;
        let found = if cut { format!(", found `{}`", self.letters()) } else { String::new() };
        let sentence = format!("the text ends too soon: expected {}{found}", self.list());
        [Some(self.error(sentence)), self.note()].into_iter().flatten().collect()
    }

    fn after_the_end(&self) -> String {
        match self.letters().as_str() {
            ")" => "the circuit ends before this `)`: no bracket is open".to_string(),
            found => {
                let found = shown(found);
                format!("the circuit ends before {found}: a text has one expression")
            }
        }
    }

    /// A part other than `[1]` and `[2]`.
    fn index(&self) -> Option<String> {
        let text = &self.source.bytes;
        let in_index = self.back(1) == "[" || self.back(2) == "[";
        if !in_index || !(self.expects("1") || self.expects("]")) {
            return None;
        }
        let open = self.before.iter().rev().find(|word| word.letters == "[")?.piece.end;
        let rest = &text[open..];
        let digits = rest.iter().take_while(|byte| byte.is_ascii_alphanumeric()).count();
        let index = String::from_utf8_lossy(&rest[..digits]);
        if digits == 0 || index == "1" || index == "2" {
            return None;
        }
        Some(format!("a pair has the parts `[1]` and `[2]`: there is no `[{index}]`"))
    }

    /// A word with other signs than letters in it.
    fn name(&self) -> Option<(Piece, String)> {
        let text = &self.source.bytes;
        let part = |byte: &u8| byte.is_ascii_alphanumeric() || *byte == b'_' || *byte >= 0x80;
        let odd = |byte: &u8| part(byte) && !byte.is_ascii_alphabetic();
        if !text.get(self.place).is_some_and(odd) {
            return None;
        }
        let before = text[..self.place].iter().rev().take_while(|byte| part(byte)).count();
        let after = text[self.place..].iter().take_while(|byte| part(byte)).count();
        let word = Piece::new(self.place - before, self.place + after);
        let letters = self.source.letters(word);
        let digits = self.expects("x") && letters.bytes().any(|byte| byte.is_ascii_digit());
        let a_word = digits || letters.chars().any(char::is_alphabetic);
        (a_word && !letters.contains('\u{fffd}'))
            .then(|| (word, format!("a name has the letters a to z only: `{letters}` is none")))
    }

    /// A word that cannot stand there.
    fn word(&self) -> Option<String> {
        let found = self.letters();
        if !found.bytes().all(|byte| byte.is_ascii_alphabetic()) {
            return None;
        }
        let capitals = found.to_ascii_uppercase();
        if capitals != found && self.expects(&capitals) {
            return Some(format!("keywords are in capitals: `{capitals}`, not `{found}`"));
        }
        if let Some(sentence) = self.keyword(&found) {
            return Some(sentence);
        }
        if !self.expects("x") || is_keyword(&found) {
            return None;
        }
        let small = found.to_ascii_lowercase();
        let letters = found.len();
        if letters > LONGEST_NAME && small == found {
            return Some(format!(
                "a name has at most {LONGEST_NAME} letters: `{found}` has {letters}"
            ));
        }
        let keywords = self.expected.iter().copied().filter(|token| is_keyword(token));
        let near = nearest(&found, keywords).is_some();
        (small != found && !near)
            .then(|| format!("names are in small letters: `{small}`, not `{found}`"))
    }

    /// A keyword, or a word after one, that has a sentence of its own.
    fn keyword(&self, found: &str) -> Option<String> {
        let brackets = self.expects("(") && self.expects("x");
        match (self.back(1), found) {
            ("ELSE", "IF") => {
                Some("an IF after ELSE has brackets of its own: `ELSE (IF .. )`".to_string())
            }
            (_, "IF" | "LET" | "DELAY") if brackets => {
                Some(format!("`{found}` stands in round brackets: `({found} .. )`"))
            }
            ("DELAY", _) if self.expects("(") => {
                Some("a DELAY has brackets inside its own: `(DELAY (.., ..))`".to_string())
            }
            ("INIT", _) => {
                let begins = "a feedback begins undefined";
                Some(format!("INIT is followed by `?` and a type: {begins}"))
            }
            ("LET", "REC") => {
                Some("a feedback has its type before REC: `LET INIT ?.. REC`".to_string())
            }
            (_, "IN") if self.back(2) == "INPUT" => {
                Some("no `IN` follows INPUT and its type".to_string())
            }
            _ => None,
        }
    }

    /// A sign that has a sentence of its own, with a note for some.
    fn sign(&self) -> Option<Vec<Message>> {
        let found = self.letters();
        let in_pattern = self.expects("x") && self.expects("(") && !self.expects("?");
        let (sentence, noted) = match found.as_str() {
            ")" if self.expects(",") => match self.open.last() {
                Some(bracket) if bracket.before == "DELAY" => {
                    ("a DELAY has a constant, a comma and the part that it delays", false)
                }
                _ => ("brackets do not group: a pair has a comma and a second part", true),
            },
            "[" if self.expects("(") && self.expects("x") => {
                ("a pair stands in round brackets: `(.., ..)`", false)
            }
            "(" if self.back(1) == "INPUT" => {
                ("INPUT is followed by the name of a type: a pair has a TYPE of its own", false)
            }
            "(" | "|" if !self.after_input() && !self.open.is_empty() => {
                ("the parts of a pair type are names: each has a TYPE of its own", false)
            }
            "," if self.expects(")") && self.after_input() => {
                ("a pair has two parts: put three as `((.., ..), ..)`", true)
            }
            "," if self.expects(")") => {
                ("a pair type has two parts: a third one needs a pair type over this one", false)
            }
            "?" | "_" if in_pattern && self.after_input() => {
                let rest = "the name of a type stands for every value of it";
                return Some(vec![self.error(format!("a pattern has no `{found}`: {rest}"))]);
            }
            _ => return None,
        };
        let note = self.note().filter(|_| noted);
        Some([Some(self.error(sentence)), note].into_iter().flatten().collect())
    }

    /// What may stand there, and what stands there.
    fn general(&self) -> Vec<Message> {
        let found = self.letters();
        let expected = format!("expected {}, found {}", self.list(), shown(&found));
        let is_word = found.bytes().all(|byte| byte.is_ascii_alphabetic());
        let keywords = self.expected.iter().copied().filter(|token| is_keyword(token));
        let near = nearest(&found, keywords).filter(|_| is_word && !is_keyword(&found));
        if let Some(keyword) = near {
            return vec![self.error(format!("{expected}; did you mean `{keyword}`?"))];
        }
        if !is_word && !TOKENS.iter().any(|(token, _)| *token == found) {
            return vec![self.error(format!("{expected}, which is no sign of the language"))];
        }
        let because = if self.before.is_empty() {
            ": a text begins with the declaration of a type"
        } else if !self.after_input() && self.expects("IN") && is_keyword(&found) {
            ": a declaration ends with `IN`"
        } else {
            ""
        };
        let error = self.error(format!("{expected}{because}"));
        [Some(error), self.note()].into_iter().flatten().collect()
    }
}
