//! `sheet check`: is the circuit accepted, and if not, why not?

use crate::arguments::{Arguments, Usage};
use crate::command::Command;
use crate::desk::{Desk, Done, GOOD};
use crate::warnings::warnings;
use crate::wording::grouped;

const WARN: (&str, &str) = ("-W", "warns of what is likely not meant");

pub const COMMAND: Command = Command {
    name: "check",
    summary: "Is a circuit accepted? If not: where, and why not?",
    help: "A text is translated and then checked. A message has the form
\
           FILE:LINE:COLUMN: error: .., followed by the line of the text and a caret. Columns
\
           count bytes, from 1. For a sheet, and where no place in the text is certain, a message
\
           has the number of a record.",
    usage: Usage { operands: &["FILE"], flags: &[WARN], options: &[] },
    run,
};

fn run(desk: &mut Desk, arguments: &Arguments) -> Done {
    let file = arguments.operand(0);
    let accepted = desk.accepted(file)?;
    if arguments.flag(WARN.0) {
        desk.tell(&accepted.circuit.source, &warnings(&accepted))?;
    }
    let types = accepted.circuit.types();
    let (input, output) = (types.label(accepted.input), types.label(accepted.output));
    let records = grouped(accepted.circuit.records.len());
    writeln!(desk.out, "{file}: accepted: input {input}, output {output}, {records} records")?;
    Ok(GOOD)
}
