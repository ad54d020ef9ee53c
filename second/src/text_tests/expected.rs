//! What tests of texts have in common.

use crate::answers::Answer;
use crate::records::{read, Record};
use crate::samples::from_words;
use crate::text::translator::translate;

/// A type of two constructors, which is the input's.
pub const BIT: &str = "TYPE bit = hi | lo IN INPUT bit ";
/// Pairs of them as the input.
pub const TWO: &str = "TYPE bit = hi | lo IN TYPE two = (bit, bit) IN INPUT two ";

/// A slice longer than any sheet.
pub const LONG: usize = 60_000;

/// The code and place for a text.
pub fn answer(text: &[u8], slice_length: usize) -> (u8, u32) {
    let Answer { code, place } = translate(text, slice_length).answer;
    (code, place)
}

/// A text is refused with a code at the place of the mark @, which is not part
/// of the text.
pub fn refused(code: u8, marked: &str) {
    let place = marked.find('@').unwrap_or_else(|| panic!("no mark"));
    let text = marked.replace('@', "");
    let found = answer(text.as_bytes(), LONG);
    assert_eq!(found, (code, place as u32), "{marked}");
}

/// A text is translated.
pub fn translated(text: &str) {
    assert_eq!(answer(text.as_bytes(), LONG).0, 0, "{text}");
}

/// The records of a text.
pub fn records(text: &str) -> Vec<Record> {
    let outcome = translate(text.as_bytes(), LONG);
    assert_eq!(outcome.answer.code, 0, "{text}");
    read(&outcome.written[..outcome.answer.place as usize])
}

/// A text has these records; words not given are 0, the count is filled in.
pub fn has_records(text: &str, words: &[&[u16]]) {
    assert_eq!(records(text), from_words(words), "{text}");
}
