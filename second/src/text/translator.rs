//! The translation of a text into a lent slice: codes 13, 14, 15 and 0.

use super::constants;
use super::naming;
use super::parser::parse;
use super::reading;
use super::syntax::Syntax;
use super::translation;
use crate::answers::{Answer, ACCEPTED, NO_ROOM, WRONG_NAME, WRONG_TEXT};
use crate::records::{bytes, Record, MAX_RECORDS, RECORD_BYTES};

/// What a translation gives. The bytes are written at the slice's start; what
/// they do not reach stays as it was.
pub struct Outcome {
    pub answer: Answer,
    pub written: Vec<u8>,
}

fn answer(code: u8, place: usize) -> Answer {
    Answer { code, place: place as u32 }
}

/// The rules of each step that a comparison can replace to make a mistake.
#[derive(Clone, Copy)]
pub struct Rules {
    pub limits: reading::Limits,
    pub scope: naming::Rules,
    pub pairs: constants::Taken,
    pub layout: translation::Rules,
}

pub const RULES: Rules = Rules {
    limits: reading::LIMITS,
    scope: naming::RULES,
    pairs: constants::TAKEN,
    layout: translation::RULES,
};

/// The abstract syntax of a text, or 13.
pub fn syntax(text: &[u8]) -> Result<Syntax, Answer> {
    syntax_by(&RULES, text)
}

/// The same by some rules.
pub fn syntax_by(rules: &Rules, text: &[u8]) -> Result<Syntax, Answer> {
    let tokens = reading::tokens_within(&rules.limits, text)
        .map_err(|illegal| answer(WRONG_TEXT, illegal.place))?;
    Ok(parse(text, &tokens))
}

/// The records of a text, however many, or 14.
pub fn records(syntax: &Syntax) -> Result<Vec<Record>, Answer> {
    records_by(&RULES, syntax)
}

/// The same by some rules.
pub fn records_by(rules: &Rules, syntax: &Syntax) -> Result<Vec<Record>, Answer> {
    let bad = |place: usize| answer(WRONG_NAME, place);
    let names = naming::resolve_by(&rules.scope, syntax).map_err(bad)?;
    let types = constants::all_types(rules.pairs, syntax, &names).map_err(bad)?;
    Ok(translation::records(&rules.layout, syntax, &names, &types))
}

/// Translates a text into a slice of a length.
pub fn translate(text: &[u8], slice_length: usize) -> Outcome {
    written(syntax(text).and_then(|syntax| records(&syntax)), slice_length)
}

/// Writes the records of a text into a slice of a length: 15, or 0 with zeros
/// after them.
pub fn written(records: Result<Vec<Record>, Answer>, slice_length: usize) -> Outcome {
    let records = match records {
        Ok(records) => records,
        Err(answer) => return Outcome { answer, written: Vec::new() },
    };
    let needed = RECORD_BYTES * records.len();
    if slice_length < needed || records.len() > MAX_RECORDS {
        return Outcome { answer: answer(NO_ROOM, needed), written: Vec::new() };
    }
    let mut written = bytes(&records);
    written.resize(slice_length, 0);
    Outcome { answer: answer(ACCEPTED, needed), written }
}
