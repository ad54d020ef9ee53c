//! Texts of given sizes: in bytes, in records, in depth.

use super::damage::any_byte;
use super::namer;
use super::sentence::{Role, Sentence};
use crate::random::Random;
use crate::text::tokens::LONGEST_NAME;

/// A text with blanks put in, up to so many bytes: before a token, or at the
/// end.
pub fn of_bytes(sentence: &Sentence, bytes: usize, random: &mut Random) -> Vec<u8> {
    let (mut text, places) = sentence.spell(random);
    let Some(more) = bytes.checked_sub(text.len()) else {
        return text;
    };
    let at = if random.one_in(2) { text.len() } else { places[random.below(places.len())] };
    let blanks: Vec<u8> = (0..more).map(|_| if random.one_in(9) { 10 } else { 32 }).collect();
    text.splice(at..at, blanks);
    text
}

/// A text of exactly so many records, 8 at least: an IF with many alternatives.
pub fn of_records(records: usize, random: &mut Random) -> Sentence {
    let mut sentence = Sentence::default();
    sentence.fixed("TYPE");
    sentence.name("bit", Role::DeclaredType);
    sentence.fixed("=");
    sentence.name("hi", Role::DeclaredConstructor);
    sentence.fixed("|");
    sentence.name("lo", Role::DeclaredConstructor);
    sentence.fixed("IN INPUT");
    sentence.name("bit", Role::InputType);
    sentence.fixed("( IF");
    sentence.name("input", Role::Expression);
    sentence.fixed("MATCHES");
    // Header, type, IF and three names; each name of a pattern is a record.
    for before in 0..records - 6 {
        if before > 0 {
            sentence.fixed("|");
        }
        sentence.name(["hi", "lo", "bit"][random.below(3)], Role::Alternative);
    }
    sentence.fixed("THEN");
    sentence.name("input", Role::Expression);
    sentence.fixed("ELSE");
    sentence.name("input", Role::Expression);
    sentence.fixed(")");
    sentence
}

/// A text with one name made longer than a name may be.
pub fn with_long_name(sentence: &Sentence, random: &mut Random) -> Sentence {
    let mut sentence = sentence.clone();
    let named = |at: &usize| sentence.words[*at].role != Role::NoName;
    let names: Vec<usize> = (0..sentence.words.len()).filter(named).collect();
    if let Some(at) = random.pick(&names) {
        let letters = random.range(LONGEST_NAME + 1, LONGEST_NAME + 10);
        sentence.words[at].letters = namer::of_letters(letters, random);
    }
    sentence
}

/// What opens a bracket, what stands inside, and what closes it.
const NESTINGS: [(&str, &str, &str); 7] = [
    ("(", "hi", ",hi)"),
    ("(hi,", "lo", ")"),
    ("(LET x=", "hi", " IN x)"),
    ("(LET x=hi IN ", "x", ")"),
    ("(LET INIT?bit REC y=", "input", " IN y)"),
    ("(IF input MATCHES hi THEN ", "hi", " ELSE lo)"),
    ("(DELAY(hi,", "?bit", "))"),
];

/// An expression in very many brackets, those at the end at times left out or
/// damaged.
pub fn deep(random: &mut Random) -> Vec<u8> {
    let (open, inside, close) = NESTINGS[random.below(NESTINGS.len())];
    let most = 65_000 / (open.len() + close.len());
    let depth = if random.one_in(2) { random.range(1, 100) } else { random.range(100, most) };
    let start = "TYPE bit=hi|lo IN INPUT bit ";
    let text = format!("{start}{}{inside}{}", open.repeat(depth), close.repeat(depth));
    let mut text = text.into_bytes();
    match random.below(4) {
        0 => text.truncate(random.range(start.len(), text.len())),
        1 => {
            let at = random.range(start.len(), text.len() - 1);
            text[at] = any_byte(random);
        }
        _ => {}
    }
    text
}
