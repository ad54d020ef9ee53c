//! What several commands take: a state to begin from, and numbers for names.

use super::options::{FROM, NUMBERS};
use crate::arguments::Arguments;
use crate::circuit::Accepted;
use crate::desk::{wrong, Desk, Failure};
use crate::message::{Message, Place};
use crate::source::Source;
use crate::state::is_state_of;
use crate::types::Types;
use crate::values::{Notation, Reader};

pub fn notation(arguments: &Arguments) -> Notation {
    if arguments.flag(NUMBERS.0) {
        Notation::Numbers
    } else {
        Notation::Names
    }
}

/// The sheet to begin with: the circuit's own, or that of `--from`.
pub fn state(
    desk: &mut Desk,
    arguments: &Arguments,
    accepted: &Accepted,
) -> Result<Vec<u8>, Failure> {
    let Some(file) = arguments.option(FROM.0) else { return Ok(accepted.circuit.sheet.clone()) };
    let source = desk.source(file)?;
    if is_state_of(&source.bytes, &accepted.circuit) {
        return Ok(source.bytes);
    }
    let circuit = &accepted.circuit.source.name;
    let sentence = format!("this is not {circuit} with other values in its delays");
    desk.refuse(&source, &[Message::error(Place::File, sentence)])
}

/// The leaves of one cycle of input, given as a word of the command.
pub fn input(
    desk: &mut Desk,
    arguments: &Arguments,
    accepted: &Accepted,
    at: usize,
) -> Result<Vec<u8>, Failure> {
    let reader = Reader { types: accepted.circuit.types(), notation: notation(arguments) };
    let text = arguments.operand(at);
    reader.read(text, accepted.input).or_else(|fault| {
        let source = Source { name: "INPUT".to_string(), bytes: text.as_bytes().to_vec() };
        desk.refuse(&source, &[Message::error(Place::of(fault.piece), fault.sentence)])
    })
}

/// Leaves as numbers.
pub fn number_list(leaves: &[u8]) -> String {
    let numbers: Vec<String> = leaves.iter().map(u8::to_string).collect();
    numbers.join(" ")
}

/// A value by names, or by numbers.
pub fn shown(arguments: &Arguments, types: &Types, of: usize, leaves: &[u8]) -> String {
    match notation(arguments) {
        Notation::Names => types.value(of, leaves),
        Notation::Numbers => number_list(leaves),
    }
}

/// The number of an output leaf, given by its number or as `output[1]`; the
/// first one where nothing is given and there is no other.
pub fn output_leaf(
    arguments: &Arguments,
    accepted: &Accepted,
    at: usize,
) -> Result<usize, Failure> {
    let paths = accepted.circuit.types().paths(accepted.output);
    let given = arguments.operand(at);
    let path: String = given.strip_prefix("output").unwrap_or(given).replace(' ', "");
    let found = match given {
        "" if paths.len() == 1 => Some(0),
        "" => None,
        given => match given.parse() {
            Ok(number) => Some(number).filter(|number| *number < paths.len()),
            Err(_) => paths.iter().position(|other| *other == path),
        },
    };
    match found {
        Some(leaf) => Ok(leaf),
        None => {
            let first: Vec<String> =
                paths.iter().take(4).map(|path| format!("output{path}")).collect();
            let more = if paths.len() > 4 { ", .." } else { "" };
            let what = if given.is_empty() {
                "LEAF is missing".to_string()
            } else {
                format!("there is no output leaf {given}")
            };
            wrong(format!("{what}: {}{more}, or 0 to {}", first.join(", "), paths.len() - 1))
        }
    }
}
