//! Code 13.

use super::expected::{answer, refused, BIT, LONG, TWO};
use crate::text::grammar::{grammar, Symbol};
use crate::text::positions::positions;
use crate::text::reading::{tokens, Way};
use crate::text::tokens::Token;

/// A whole text is outside the grammar at the mark.
fn illegal(marked: &str) {
    refused(13, marked);
}

/// The same of an expression, after a type and the input.
fn illegal_in(marked: &str) {
    illegal(&format!("{BIT}{marked}"));
}

fn legal(text: &str) {
    assert!(tokens(text.as_bytes()).is_ok(), "{text}");
}

fn legal_in(expression: &str) {
    legal(&format!("{BIT}{expression}"));
}

#[test]
fn reading_1_declarations() {
    legal("TYPE one = a IN INPUT one a");
    legal(&format!("{TWO}input"));
    illegal("@INPUT bit hi");
    illegal_in("@IN hi");
    illegal("TYPE one = @IN INPUT one a");
    illegal("TYPE one = a | @IN INPUT one a");
    illegal("TYPE one = (a@) IN INPUT one a");
    illegal("TYPE one = (a, a@, a) IN INPUT one a");
    illegal("TYPE one = a @, b IN INPUT one a");
    illegal("TYPE one = a IN INPUT @(a, a) hi");
    illegal("TYPE one = a IN @LET");
}

#[test]
fn reading_2_brackets() {
    illegal_in("(input@)");
    illegal_in("((hi, lo)@)");
    illegal_in("@LET x = hi IN x");
    illegal_in("@IF hi MATCHES hi THEN hi ELSE lo");
    illegal_in("@DELAY (hi, input)");
    illegal_in("hi@, lo");
    illegal_in("(IF input MATCHES (hi|lo@)|hi THEN hi ELSE lo)");
    illegal_in("(IF input MATCHES (hi@) THEN hi ELSE lo)");
    illegal_in("(DELAY @hi, input)");
    illegal_in("(DELAY (hi, input)@");
    illegal_in("(DELAY (hi, input)@, lo)");
    illegal_in("(DELAY ((hi@), input))");
    illegal_in("(hi, lo@, hi)");
    legal_in("((hi, lo), (LET x = hi IN (x, x)))");
    legal_in("(DELAY (((hi, lo), hi), (IF hi MATCHES (hi, lo) THEN hi ELSE lo)))");
}

#[test]
fn reading_3_parts() {
    legal_in("input[1][2] [ 1 ]");
    legal_in("(hi, lo)[1]");
    legal_in("?bit[2]");
    legal_in("(LET x = input[1] IN x[2])[1]");
    legal_in("input[ 1\n]");
    legal_in("? bit");
    legal_in("?\n\n bit");
    legal_in("(LET INIT ? bit REC x = x IN x)");
    illegal_in("input[1@2]");
    illegal_in("input[@3]");
    illegal_in("input[@]");
    illegal_in("input[@x]");
    illegal_in("input[1@");
    illegal_in("@1");
    illegal_in("(DELAY (hi@[1], input))");
    illegal_in("(DELAY ((hi, lo)@[1], input))");
    illegal_in("(IF input MATCHES hi@[1] THEN hi ELSE lo)");
}

#[test]
fn reading_4_patterns() {
    legal_in("(IF input MATCHES (hi|lo, lo|hi) | bit THEN hi ELSE lo)");
    legal_in("(IF input MATCHES ((hi, lo)|bit, hi) THEN hi ELSE lo)");
    illegal_in("(IF input MATCHES @?bit THEN hi ELSE lo)");
    illegal_in("(IF input MATCHES (hi, @? bit) THEN hi ELSE lo)");
    illegal_in("(IF input MATCHES hi | @THEN hi ELSE lo)");
    illegal_in("(IF input MATCHES @| hi THEN hi ELSE lo)");
}

#[test]
fn reading_5_byte_by_byte() {
    illegal("TYP@X");
    illegal("TYP@ ");
    illegal("TYPE@x");
    illegal("TYPE a = b IN@PUT");
    illegal("TYPE a = b IN@");
    illegal("TYPE a = b I@");
    illegal("@");
    illegal("  \n@");
    illegal("TYP@");
    illegal("TYPE bit = hi | lo IN INPUT bit@");
    illegal("TYPE abcdefghijklmnop@q = hi IN INPUT bit hi");
    illegal("TYPE abcdefghijklmnop@");
    legal("TYPE abcdefghijklmnop = hi IN INPUT abcdefghijklmnop hi");
    illegal("TYPE @Bit");
    illegal("TYPE b@It");
    illegal("TYPE bit = hi IN INPUT@bit hi");
    illegal_in("h@I");
    illegal_in("(I@NIT");
    illegal_in("(LET IN@ ");
    illegal_in("(LET INIT ? bit RE@D");
    illegal_in("(IF hi MATCH@ hi THEN");
    illegal_in("hi @hi");
    illegal_in("hi@)");
    illegal_in("hi @IN");
    legal_in("hi \n \n ");
    legal("\n TYPE bit=hi|lo IN INPUT bit(LET x=hi IN(x,x)[1])\n");
    legal("TYPE bit=hi IN INPUT bit?bit");
}

#[test]
fn reading_5_other_bytes() {
    for byte in [0, 9, 11, 13, 31, 33, b'*', b'.', b'0', b'3', b'_', b'{', 128, 200, 255] {
        let text = [BIT.as_bytes(), b"hi ", &[byte]].concat();
        assert_eq!(answer(&text, LONG), (13, BIT.len() as u32 + 3), "{byte}");
        let text = [b"TYPE", &[byte][..], BIT.as_bytes()].concat();
        assert_eq!(answer(&text, LONG), (13, 4), "{byte}");
    }
}

#[test]
fn reading_6_kinds_are_no_grammar() {
    legal_in("(DELAY (bit, nope))");
    legal_in("(IF input MATCHES input THEN bit ELSE hi)");
    legal("TYPE input = input | input IN INPUT nope (LET input = bit IN ?hi)");
}

#[test]
fn reading_7_length() {
    let whole = format!("{BIT}hi");
    let padded = |length: usize| [whole.as_bytes(), &vec![b' '; length - whole.len()]].concat();
    assert_eq!(answer(&padded(65_535), LONG), (0, 48));
    assert_eq!(answer(&padded(65_536), LONG), (13, 65_535));
    assert_eq!(answer(&padded(80_000), LONG), (13, 65_535));
    // Brackets that could no longer be closed are no fault before.
    let open = |length: usize| [BIT.as_bytes(), &vec![b'('; length - BIT.len()]].concat();
    assert_eq!(answer(&open(65_534), LONG), (13, 65_534));
    assert_eq!(answer(&open(65_535), LONG), (13, 65_535));
    assert_eq!(answer(&open(65_536), LONG), (13, 65_535));
    for (place, found) in [(40, 40), (65_534, 65_534), (65_535, 65_535), (65_536, 65_535)] {
        let mut text = padded(70_000);
        text[place] = b'*';
        assert_eq!(answer(&text, LONG), (13, found));
    }
    let illegal = tokens(&padded(65_536)).err().map(|illegal| illegal.way);
    assert_eq!(illegal, Some(Way::TooLong));
}

/// Where a phrase that may be left out comes next, its first token can't begin
/// what has to come then: so each text has one reading.
#[test]
fn one_reading() {
    let first = |symbol: Symbol, token: Token| match symbol {
        Symbol::Token(wanted) => wanted == token,
        Symbol::Phrase(phrase) => grammar()
            .choice(phrase, token)
            .is_some_and(|rule| !grammar().rules[rule].symbols.is_empty()),
        Symbol::Complete(_) => false,
    };
    let begins = [Token::Type, Token::Bar, Token::OpenIndex];
    let mut optional = 0;
    for position in positions() {
        let (Some(left_out), Some(needed)) = (position.optional, position.needed) else { continue };
        optional += 1;
        let [left_out, needed] = [left_out, needed].map(|item| grammar().symbol(item));
        let begun: Vec<Token> = begins.into_iter().filter(|t| first(left_out, *t)).collect();
        assert_eq!(begun.len(), 1);
        assert!(!first(needed, begun[0]), "{}", position.words());
    }
    // After declarations 2, constructors 2, an expression 2 x 9, alternatives 2 x 3.
    assert_eq!(optional, 28);
}

/// All places in the grammar that a text can come to.
#[test]
fn all_positions() {
    let found = positions();
    let plain = found.iter().filter(|position| position.optional.is_none()).count();
    // Before the text 1, after INPUT 2, in declarations 9, in [..] 2, after `?` and `(` 2, in a
    // pair 1, after LET 1, in an IF 4, in a DELAY 5, in a LET 3, in a LET REC 7, in constants 5,
    // in patterns 3.
    assert_eq!(plain, 45);
    // The end of the text, with [..] before it or not.
    assert_eq!(found.iter().filter(|position| position.needed.is_none()).count(), 2);
    assert_eq!(found.len(), 45 + 28 + 2);
}
