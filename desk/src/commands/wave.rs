//! `sheet wave`: a run for a viewer of waves.

use super::common::{notation, state};
use super::options::{FROM, NUMBERS, OUTPUT};
use crate::arguments::{Arguments, Usage};
use crate::command::Command;
use crate::desk::{wrong, Desk, Done, GOOD};
use crate::signals::Signals;
use crate::stimulus;
use crate::vcd;

pub const COMMAND: Command = Command {
    name: "wave",
    summary: "Writes a run as a VCD file, for GTKWave.",
    help:
        "It has the leaves of input and output with their names, what delays hold in each cycle,\n\
           and which alternative of each IF fired. A cycle takes one unit of time. A type of two\n\
           constructors such as hi and lo is a level; every other value is a word.",
    usage: Usage { operands: &["FILE", "STIMULUS"], flags: &[NUMBERS], options: &[FROM, OUTPUT] },
    run,
};

fn run(desk: &mut Desk, arguments: &Arguments) -> Done {
    let accepted = desk.accepted(arguments.operand(0))?;
    let sheet = state(desk, arguments, &accepted)?;
    let stimulus = stimulus::read(desk, arguments.operand(1), &accepted, notation(arguments))?;
    let mut signals = Signals::new(&accepted, sheet);
    let file = arguments.operand(0).rsplit('/').next().unwrap_or("circuit");
    let title = file.split('.').next().unwrap_or(file);
    let mut sink = desk.sink(arguments.option(OUTPUT.0))?;
    sink.write_all(vcd::head(&signals, title).as_bytes())?;
    let mut before: Option<Vec<u16>> = None;
    let mut number = 0;
    for input in stimulus.iter() {
        let values = match signals.cycle(input) {
            Ok(values) => values,
            Err(answer) => return wrong(format!("the run is refused by code {}", answer.code)),
        };
        let changes = vcd::cycle(&signals, number, before.as_deref(), &values);
        sink.write_all(changes.as_bytes())?;
        before = Some(values);
        number += 1;
    }
    writeln!(sink, "#{number}")?;
    sink.flush()?;
    Ok(GOOD)
}
