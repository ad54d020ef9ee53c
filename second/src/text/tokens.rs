//! The tokens of a text: words, which are runs of letters, and signs of one
//! byte.

#[derive(Clone, Copy, PartialEq, Eq, Hash, Debug)]
pub enum Token {
    Name,
    Type,
    In,
    Input,
    Let,
    Init,
    Rec,
    If,
    Matches,
    Then,
    Else,
    Delay,
    Equals,
    Bar,
    Open,
    Close,
    Comma,
    Question,
    OpenIndex,
    CloseIndex,
    One,
    Two,
}

pub const KEYWORDS: [(&str, Token); 11] = [
    ("TYPE", Token::Type),
    ("IN", Token::In),
    ("INPUT", Token::Input),
    ("LET", Token::Let),
    ("INIT", Token::Init),
    ("REC", Token::Rec),
    ("IF", Token::If),
    ("MATCHES", Token::Matches),
    ("THEN", Token::Then),
    ("ELSE", Token::Else),
    ("DELAY", Token::Delay),
];

pub const SIGNS: [(u8, Token); 10] = [
    (b'=', Token::Equals),
    (b'|', Token::Bar),
    (b'(', Token::Open),
    (b')', Token::Close),
    (b',', Token::Comma),
    (b'?', Token::Question),
    (b'[', Token::OpenIndex),
    (b']', Token::CloseIndex),
    (b'1', Token::One),
    (b'2', Token::Two),
];

/// The greatest number of letters of a name.
pub const LONGEST_NAME: usize = 16;
/// The greatest number of bytes of a text.
pub const LONGEST_TEXT: usize = 65_535;

/// The name of the stimulus.
pub const INPUT: &str = "input";

pub fn is_blank(byte: u8) -> bool {
    byte == 32 || byte == 10
}

/// The sign that a byte is.
pub fn sign(byte: u8) -> Option<Token> {
    SIGNS.iter().find(|(b, _)| *b == byte).map(|(_, token)| *token)
}

/// A token and its bytes, from `place` up to `end`.
#[derive(Clone, Copy, PartialEq, Eq, Debug)]
pub struct Placed {
    pub token: Token,
    pub place: usize,
    pub end: usize,
}
