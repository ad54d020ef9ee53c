//! `sheet carry`: a new circuit with what the delays of an old one hold.

use std::collections::BTreeMap;

use second::records::D;

use super::common::state;
use super::options::FROM;
use crate::archive;
use crate::arguments::{Arguments, Usage};
use crate::circuit::Accepted;
use crate::command::Command;
use crate::desk::{wrong, Desk, Done, Failure, GOOD};
use crate::message::{Message, Place};
use crate::state::{delays, Delay};
use crate::types::Types;

pub const COMMAND: Command = Command {
    name: "carry",
    summary: "The new circuit with what the delays of the old one hold.",
    help:
        "Two delays are one where they have one label and types of the same shape. Of a sheet the\n\
           label is the delay's own. Of a text it is made of the names around the delay: those of\n\
           the LETs in whose defining parts it lies, the outermost first, as count.carry; output\n\
           where there is none; and #2, #3 and so on for the second and third delay of one label.\n\
           What is carried and what is not is listed. --from has what the old delays hold now.",
    usage: Usage {
        operands: &["OLD", "NEW"],
        flags: &[],
        options: &[FROM, ("--next", "SHEET", "writes the new sheet there")],
    },
    run,
};

fn run(desk: &mut Desk, arguments: &Arguments) -> Done {
    let old = desk.accepted(arguments.operand(0))?;
    let new = desk.accepted(arguments.operand(1))?;
    if old.circuit.source.is_sheet() != new.circuit.source.is_sheet() {
        return wrong("OLD and NEW are two texts or two sheets");
    }
    let running = state(desk, arguments, &old)?;
    let texts = !old.circuit.source.is_sheet();
    let (old_delays, new_delays) = (delays(&old.circuit), delays(&new.circuit));
    let (mut from, mut to) = (running.clone(), new.circuit.sheet.clone());
    if texts {
        let numbers = numbers(&old_delays, &new_delays);
        label(&mut from, &old_delays, &numbers);
        label(&mut to, &new_delays, &numbers);
    }
    let mut carried = match archive::carry(&from, &to) {
        Ok(carried) => carried,
        Err(answer) => return refused(desk, &old, &new, answer.code, answer.place),
    };
    if texts {
        label(&mut carried, &new_delays, &BTreeMap::new());
    }
    list(desk, [&old, &new], [&old_delays, &new_delays], [&running, &carried])?;
    if let Some(file) = arguments.option("--next") {
        desk.write(file, &carried)?;
    }
    Ok(GOOD)
}

/// A number for each name of a delay, the same in both circuits.
fn numbers<'a>(old: &'a [Delay], new: &'a [Delay]) -> BTreeMap<&'a str, u16> {
    let mut numbers = BTreeMap::new();
    for delay in old.iter().chain(new) {
        let next = numbers.len() as u16 + 1;
        numbers.entry(delay.name.as_str()).or_insert(next);
    }
    numbers
}

/// Gives the delays of a sheet their labels; none to a name without a number.
fn label(sheet: &mut [u8], delays: &[Delay], numbers: &BTreeMap<&str, u16>) {
    for delay in delays {
        let label = numbers.get(delay.name.as_str()).copied().unwrap_or(0);
        let at = 12 * delay.record + 2 * D;
        sheet[at..at + 2].copy_from_slice(&label.to_le_bytes());
    }
}

fn refused(desk: &mut Desk, old: &Accepted, new: &Accepted, code: u8, place: u32) -> Done {
    const LABEL_TWICE: u8 = second::answers::LABEL_TWICE;
    if code != LABEL_TWICE {
        return wrong(format!("carrying is refused by code {code}"));
    }
    // The old sheet is searched first.
    let twice = |accepted: &Accepted| {
        let records = &accepted.circuit.records;
        let label = records.get(place as usize).map_or(0, |record| record[D]);
        let found = delays(&accepted.circuit);
        let bearers = found.iter().filter(|delay| records[delay.record][D] == label);
        label != 0 && bearers.count() > 1
    };
    let accepted = if twice(old) { old } else { new };
    let sentence = "an earlier delay has the same label";
    let message = Message::error(Place::Record(place as usize), sentence);
    desk.refuse(&accepted.circuit.source, &[message])
}

/// Whether two types have one shape: pairs, and flats of equal counts.
fn same_shape(one: Types, of: usize, other: Types, as_of: usize) -> bool {
    match (one.parts(of), other.parts(as_of)) {
        (Some((a, b)), Some((c, d))) => {
            same_shape(one, a, other, c) && same_shape(one, b, other, d)
        }
        (None, None) => one.count(of) == other.count(as_of),
        _ => false,
    }
}

/// What was carried, and what was not.
fn list(
    desk: &mut Desk,
    circuits: [&Accepted; 2],
    delays: [&[Delay]; 2],
    sheets: [&[u8]; 2],
) -> Result<(), Failure> {
    let [old, new] = circuits.map(|accepted| accepted.circuit.types());
    for delay in delays[1] {
        let unlabelled = circuits[1].circuit.source.is_sheet() && delay.name.starts_with("record");
        let partner = delays[0].iter().find(|other| other.name == delay.name && !unlabelled);
        let value = new.value(delay.of, &delay.held(sheets[1]));
        let name = &delay.name;
        match partner {
            Some(other) if same_shape(old, other.of, new, delay.of) => {
                writeln!(desk.out, "{name}: carried, holds {value}")?;
            }
            Some(other) => {
                let (was, is) = (old.label(other.of), new.label(delay.of));
                let why = format!("it was {was} and is {is}");
                writeln!(desk.out, "{name}: not carried, {why}; holds {value}")?;
            }
            None if unlabelled => {
                writeln!(desk.out, "{name}: not carried, it has no label; holds {value}")?;
            }
            None => writeln!(desk.out, "{name}: new, holds {value}")?,
        }
    }
    for delay in delays[0] {
        if !delays[1].iter().any(|other| other.name == delay.name) {
            let value = old.value(delay.of, &delay.held(sheets[0]));
            writeln!(desk.out, "{}: gone, held {value}", delay.name)?;
        }
    }
    Ok(())
}
