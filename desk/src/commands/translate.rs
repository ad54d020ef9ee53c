//! `sheet translate`: the sheet of a text.

use crate::arguments::{Arguments, Usage};
use crate::command::Command;
use crate::desk::{wrong, Desk, Done, GOOD};

pub const COMMAND: Command = Command {
    name: "translate",
    summary: "Writes the sheet of a text.",
    help: "The sheet is checked too: a circuit that is refused is not written.",
    usage: Usage { operands: &["FILE", "SHEET"], flags: &[], options: &[] },
    run,
};

fn run(desk: &mut Desk, arguments: &Arguments) -> Done {
    let (file, sheet) = (arguments.operand(0), arguments.operand(1));
    let accepted = desk.accepted(file)?;
    if accepted.circuit.source.is_sheet() {
        return wrong(format!("{file} is a sheet already"));
    }
    desk.write(sheet, &accepted.circuit.sheet)?;
    writeln!(desk.out, "{sheet}: {} records", accepted.circuit.records.len())?;
    Ok(GOOD)
}
