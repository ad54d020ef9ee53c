//! The grammar of texts, and which tokens may come next after some were read.

use std::sync::OnceLock;

use super::tokens::{Token, KEYWORDS, SIGNS};

/// A rule a line. A word in small letters is a phrase, but for `name`, which
/// is a token as are words in capitals and signs. A word after a point is the
/// piece of the tree that is complete there; it takes no bytes.
const GRAMMAR: &str = "
    whole        -> text
    text         -> declaration declarations INPUT name .input-type expression
    declarations -> declaration declarations
    declarations ->
    declaration  -> TYPE name .type-name = definition IN
    definition   -> name .constructor constructors
    definition   -> ( name , name ) .pair-type
    constructors -> | name .constructor constructors
    constructors ->
    expression   -> primary parts
    parts        -> [ index ] parts
    parts        ->
    index        -> 1 .first-part
    index        -> 2 .second-part
    primary      -> name .name
    primary      -> ? name .undefined
    primary      -> ( bracketed
    bracketed    -> expression , expression ) .pair
    bracketed    -> LET binding )
    bracketed    -> IF expression MATCHES pattern THEN expression ELSE expression ) .if
    bracketed    -> DELAY ( constant , expression ) ) .delay
    binding      -> name = expression IN expression .let
    binding      -> INIT ? name REC name = expression IN expression .feedback
    constant     -> name .constant-name
    constant     -> ? name .constant-undefined
    constant     -> ( constant , constant ) .constant-pair
    pattern      -> .pattern-begins alternative alternatives .pattern-ends
    alternatives -> | alternative alternatives
    alternatives ->
    alternative  -> name .alternative-name
    alternative  -> ( pattern , pattern ) .alternative-pair
";

/// A piece of the syntax tree that is complete, or a pattern that begins.
#[derive(Clone, Copy, PartialEq, Eq, Debug)]
pub enum Piece {
    InputType,
    TypeName,
    Constructor,
    PairType,
    FirstPart,
    SecondPart,
    Name,
    Undefined,
    Pair,
    If,
    Delay,
    Let,
    Feedback,
    ConstantName,
    ConstantUndefined,
    ConstantPair,
    PatternBegins,
    PatternEnds,
    AlternativeName,
    AlternativePair,
}

const PIECES: [(&str, Piece); 20] = [
    ("input-type", Piece::InputType),
    ("type-name", Piece::TypeName),
    ("constructor", Piece::Constructor),
    ("pair-type", Piece::PairType),
    ("first-part", Piece::FirstPart),
    ("second-part", Piece::SecondPart),
    ("name", Piece::Name),
    ("undefined", Piece::Undefined),
    ("pair", Piece::Pair),
    ("if", Piece::If),
    ("delay", Piece::Delay),
    ("let", Piece::Let),
    ("feedback", Piece::Feedback),
    ("constant-name", Piece::ConstantName),
    ("constant-undefined", Piece::ConstantUndefined),
    ("constant-pair", Piece::ConstantPair),
    ("pattern-begins", Piece::PatternBegins),
    ("pattern-ends", Piece::PatternEnds),
    ("alternative-name", Piece::AlternativeName),
    ("alternative-pair", Piece::AlternativePair),
];

/// What a rule asks for; a phrase by its number.
#[derive(Clone, Copy, PartialEq, Eq, Debug)]
pub enum Symbol {
    Token(Token),
    Phrase(usize),
    Complete(Piece),
}

/// One way to make up a phrase.
pub struct Rule {
    pub phrase: usize,
    pub symbols: Vec<Symbol>,
    /// The words of its line, the pieces left out.
    pub words: Vec<&'static str>,
}

pub struct Grammar {
    pub rules: Vec<Rule>,
    /// The rule of each phrase for each token that comes next; of all other
    /// tokens the empty rule, if the phrase has one.
    choices: Vec<[Option<usize>; TOKENS]>,
    empty: Vec<Option<usize>>,
}

const TOKENS: usize = 1 + KEYWORDS.len() + SIGNS.len();

/// The grammar of texts.
pub fn grammar() -> &'static Grammar {
    static READ: OnceLock<Grammar> = OnceLock::new();
    READ.get_or_init(Grammar::read)
}

fn token(word: &str) -> Option<Token> {
    let sign = SIGNS.iter().find(|(byte, _)| word.as_bytes() == [*byte]).map(|(_, token)| *token);
    let keyword = KEYWORDS.iter().find(|(letters, _)| *letters == word).map(|(_, token)| *token);
    sign.or(keyword).or((word == "name").then_some(Token::Name))
}

impl Grammar {
    fn read() -> Grammar {
        let lines: Vec<Vec<&str>> = GRAMMAR
            .lines()
            .filter(|line| line.contains("->"))
            .map(|line| line.split_whitespace().collect())
            .collect();
        let mut phrases: Vec<&str> = lines.iter().map(|words| words[0]).collect();
        phrases.dedup();
        let phrase = |word: &str| phrases.iter().position(|p| *p == word);
        let piece = |word: &str| {
            let word = word.strip_prefix('.')?;
            PIECES.iter().find(|(name, _)| *name == word).map(|(_, piece)| *piece)
        };
        let symbol = |word: &&str| {
            let known = token(word)
                .map(Symbol::Token)
                .or(phrase(word).map(Symbol::Phrase))
                .or(piece(word).map(Symbol::Complete));
            known.unwrap_or_else(|| panic!("{word} in no rule"))
        };
        let rule = |words: &Vec<&'static str>| Rule {
            phrase: phrase(words[0]).unwrap_or(0),
            symbols: words[2..].iter().map(symbol).collect(),
            words: words.iter().copied().filter(|word| !word.starts_with('.')).collect(),
        };
        let rules: Vec<Rule> = lines.iter().map(rule).collect();
        let choices = (0..phrases.len()).map(|phrase| choices(&rules, phrase)).collect();
        let is_empty = |p: usize| rules.iter().position(|r| r.phrase == p && r.symbols.is_empty());
        let empty = (0..phrases.len()).map(is_empty).collect();
        Grammar { rules, choices, empty }
    }

    /// The rule of a phrase where a token comes next.
    pub fn choice(&self, phrase: usize, token: Token) -> Option<usize> {
        self.choices[phrase][token as usize].or(self.empty[phrase])
    }

    /// Whether a symbol can take no bytes.
    pub fn can_be_empty(&self, symbol: Symbol) -> bool {
        match symbol {
            Symbol::Token(_) => false,
            Symbol::Phrase(phrase) => self.empty[phrase].is_some(),
            Symbol::Complete(_) => true,
        }
    }

    pub fn symbol(&self, item: Item) -> Symbol {
        self.rules[item.rule].symbols[item.at]
    }
}

/// The rules of a phrase by the token they begin with.
fn choices(rules: &[Rule], phrase: usize) -> [Option<usize>; TOKENS] {
    let mut chosen = [None; TOKENS];
    for (number, rule) in rules.iter().enumerate().filter(|(_, rule)| rule.phrase == phrase) {
        let mut first = rule.symbols.iter().filter(|s| !matches!(s, Symbol::Complete(_)));
        let begins: Vec<usize> = match first.next() {
            None => Vec::new(),
            Some(Symbol::Token(token)) => vec![*token as usize],
            Some(Symbol::Phrase(part)) => {
                let of_part = choices(rules, *part);
                (0..TOKENS).filter(|&token| of_part[token].is_some()).collect()
            }
            Some(Symbol::Complete(_)) => Vec::new(),
        };
        for token in begins {
            assert!(chosen[token].is_none(), "two rules begin with one token");
            chosen[token] = Some(number);
        }
    }
    chosen
}

/// A symbol of a rule, by its place in the rule.
#[derive(Clone, Copy, PartialEq, Eq, PartialOrd, Ord, Hash, Debug)]
pub struct Item {
    pub rule: usize,
    pub at: usize,
}
