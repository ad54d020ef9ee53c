//! `sheet page`: a page about a run.

use super::common::{notation, state};
use super::options::{FROM, NUMBERS, OUTPUT};
use crate::arguments::{Arguments, Usage};
use crate::command::Command;
use crate::desk::{wrong, Desk, Done, GOOD};
use crate::page::page;
use crate::signals::Signals;
use crate::stimulus;

/// How many cycles are shown if nothing is asked for.
const CYCLES: &str = "200";

pub const COMMAND: Command = Command {
    name: "page",
    summary: "Writes one HTML page: the text, the waves of a run, the drawing.",
    help: "The page needs no other file and no script; a browser opens and prints it.",
    usage: Usage {
        operands: &["FILE", "STIMULUS"],
        flags: &[NUMBERS],
        options: &[FROM, OUTPUT, ("--cycles", "COUNT", "shows so many cycles; 200 if not given")],
    },
    run,
};

fn run(desk: &mut Desk, arguments: &Arguments) -> Done {
    let most = arguments.option("--cycles").unwrap_or(CYCLES);
    let Ok(most) = most.parse() else {
        return wrong(format!("--cycles takes a number, not {most}"));
    };
    let accepted = desk.accepted(arguments.operand(0))?;
    let sheet = state(desk, arguments, &accepted)?;
    let stimulus = stimulus::read(desk, arguments.operand(1), &accepted, notation(arguments))?;
    let mut signals = Signals::new(&accepted, sheet);
    let mut cycles = Vec::new();
    for input in stimulus.iter().take(most) {
        match signals.cycle(input) {
            Ok(values) => cycles.push(values),
            Err(answer) => return wrong(format!("the run is refused by code {}", answer.code)),
        }
    }
    let page = page(&accepted, &signals, &cycles, stimulus.cycles());
    desk.deliver(arguments.option(OUTPUT.0), page.as_bytes())?;
    Ok(GOOD)
}
