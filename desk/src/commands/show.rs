//! `sheet show`: the outputs of one cycle without taking it, and which
//! alternatives fired.

use second::records::{IF, KIND};

use super::common::{input, shown, state};
use super::options::{FROM, NUMBERS};
use crate::archive;
use crate::arguments::{Arguments, Usage};
use crate::command::Command;
use crate::desk::{wrong, Desk, Done, GOOD};
use crate::patterns::alternative;

pub const COMMAND: Command = Command {
    name: "show",
    summary: "The outputs of one cycle, and which alternative of each IF fired.",
    help: "INPUT is the input of the cycle, as a line of a stimulus: sheet show FILE '(hi, lo)'.\n\
           The cycle is not taken. After the output comes a line for each IF: its place, and the\n\
           first alternative of its pattern that says yes, with its place.",
    usage: Usage { operands: &["FILE", "INPUT"], flags: &[NUMBERS], options: &[FROM] },
    run,
};

fn run(desk: &mut Desk, arguments: &Arguments) -> Done {
    let accepted = desk.accepted(arguments.operand(0))?;
    let sheet = state(desk, arguments, &accepted)?;
    let leaves = input(desk, arguments, &accepted, 1)?;
    let (outputs, fired) =
        match (archive::preview(&sheet, &leaves), archive::fired(&sheet, &leaves)) {
            (Ok(outputs), Ok(fired)) => (outputs, fired),
            (Err(answer), _) | (_, Err(answer)) => {
                return wrong(format!("the cycle is refused by code {}", answer.code));
            }
        };
    let circuit = &accepted.circuit;
    let value = shown(arguments, &circuit.types(), accepted.output, &outputs);
    writeln!(desk.out, "output: {value}")?;
    for (number, record) in circuit.records.iter().enumerate() {
        if record[KIND] != IF {
            continue;
        }
        let place = circuit.position(number);
        match usize::from(fired[number]) {
            0 => writeln!(desk.out, "{place}: IF: no alternative fired")?,
            found => {
                let at = circuit.position(found);
                let text = alternative(circuit, found);
                writeln!(desk.out, "{place}: IF: {text} at {at} fired")?;
            }
        }
    }
    Ok(GOOD)
}
