//! `sheet records`: the records of a sheet, with what each says.

use second::records::{
    Record, A, B, C, CONSTANT, CONSTRUCTOR, D, DELAY, FEEDBACK, FIRST, FLAT, HEADER, IF, KIND,
    LEAF, LET, NAME, NEXT, PAIR, PAIR_PATTERN, PAIR_TYPE, SECOND, WHOLE,
};

use crate::arguments::{Arguments, Usage};
use crate::circuit::Circuit;
use crate::command::Command;
use crate::desk::{Desk, Done, GOOD};

pub const COMMAND: Command = Command {
    name: "records",
    summary: "The records of a circuit, one a line.",
    help: "A line has the record's number, its six words and what they say; for a text also the\n\
           line and column that the record comes from. A sheet need not be accepted.",
    usage: Usage { operands: &["FILE"], flags: &[], options: &[] },
    run,
};

fn run(desk: &mut Desk, arguments: &Arguments) -> Done {
    let circuit = desk.circuit(arguments.operand(0))?;
    for (number, record) in circuit.records.iter().enumerate() {
        let words: Vec<String> = record.iter().map(|word| format!("{word:>5}")).collect();
        let place = circuit.piece(number).map(|piece| circuit.source.position(piece.place));
        let place = place.map(|place| format!("{place:<8}")).unwrap_or_default();
        let line = format!("{number:>4}:{}  {place}{}", words.concat(), says(&circuit, record));
        writeln!(desk.out, "{}", line.trim_end())?;
    }
    Ok(GOOD)
}

/// What a record says; its words may be any.
fn says(circuit: &Circuit, record: &Record) -> String {
    let types = circuit.types();
    let [_, next, a, b, c, d] = *record;
    let of = |number: u16| types.label(usize::from(number));
    let then = match next {
        0 => String::new(),
        next => format!(", then {next}"),
    };
    match record[KIND] {
        HEADER => format!("header: types from {next}, input {}, root {b}, {c} records", of(a)),
        FLAT => format!("type of {a} constructors{then}"),
        PAIR_TYPE => format!("pair type of {} and {}{then}", of(a), of(b)),
        CONSTANT => format!("constant of {}: leaves from {b}", of(a)),
        NAME => format!("name {a}, counted from the innermost"),
        PAIR => format!("pair of {a} and {b}"),
        FIRST => format!("first part of {a}"),
        SECOND => format!("second part of {a}"),
        LET => format!("LET: defining part {a}, body {b}"),
        FEEDBACK => format!("feedback of {}: defining part {b}, body {c}", of(a)),
        IF => format!("IF {a} matches {d} then {b} else {c}"),
        DELAY => {
            let label = if d == 0 { String::new() } else { format!(", label {d}") };
            format!("delay of {}: holds leaves from {b}, delays {c}{label}", of(a))
        }
        WHOLE => format!("pattern: any {}{then}", of(a)),
        CONSTRUCTOR => {
            let names = types.constructors(usize::from(a));
            let name = names.get(usize::from(b).wrapping_sub(1));
            let name = name.map_or_else(|| format!("constructor {b}"), |name| format!("`{name}`"));
            format!("pattern: {name} of {}{then}", of(a))
        }
        PAIR_PATTERN => format!("pattern: pair of {a} and {b}{then}"),
        LEAF => format!("leaf {a}{then}"),
        kind => format!("no known kind: {kind}"),
    }
}

// The words in their order, as `says` takes them apart.
const _: () = assert!(NEXT == 1 && A == 2 && B == 3 && C == 4 && D == 5);
