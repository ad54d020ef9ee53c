//! `sheet replay`: is a record of outputs what a circuit puts out?

use super::common::{notation, state};
use super::options::{FROM, NUMBERS};
use crate::archive;
use crate::arguments::{Arguments, Usage};
use crate::command::Command;
use crate::desk::{wrong, Desk, Done, GOOD, REFUSED};
use crate::message::{Message, Place};
use crate::stimulus;
use crate::wording::grouped;

pub const COMMAND: Command = Command {
    name: "replay",
    summary: "Is a record of outputs the one that a circuit makes?",
    help: "RECORD has the output of one cycle a line, as a stimulus has inputs, or as run prints\n\
           them, with the cycle's number before it. The first cycle that differs is told, and its\n\
           lowest leaf that does; the status is then 1.",
    usage: Usage { operands: &["FILE", "STIMULUS", "RECORD"], flags: &[NUMBERS], options: &[FROM] },
    run,
};

fn run(desk: &mut Desk, arguments: &Arguments) -> Done {
    let accepted = desk.accepted(arguments.operand(0))?;
    let notation = notation(arguments);
    let mut sheet = state(desk, arguments, &accepted)?;
    let stimulus = stimulus::read(desk, arguments.operand(1), &accepted, notation)?;
    let record = stimulus::read_outputs(desk, arguments.operand(2), &accepted, notation)?;
    let (cycles, recorded) = (stimulus.cycles(), record.cycles());
    if cycles != recorded {
        let (cycles, recorded) = (grouped(cycles as usize), grouped(recorded as usize));
        let sentence = format!("the record has {recorded} cycles, and the stimulus {cycles}");
        return desk.refuse(&record.source, &[Message::error(Place::File, sentence)]);
    }
    let most = archive::LONGEST_STIMULUS / stimulus.width;
    let (mut inputs, mut outputs) = (stimulus.iter(), record.iter());
    let mut done = 0;
    loop {
        let part: Vec<&[u8]> = inputs.by_ref().take(most).collect();
        if part.is_empty() {
            break;
        }
        let out: Vec<&[u8]> = outputs.by_ref().take(part.len()).collect();
        match archive::replay(&sheet, &part.concat(), &out.concat()) {
            Ok(Ok(next)) => sheet = next,
            Ok(Err((cycle, leaf))) => {
                let types = accepted.circuit.types();
                let path = &types.paths(accepted.output)[leaf];
                let of = types.leaves(accepted.output)[leaf];
                let recorded = types.leaf(of, out[cycle][leaf]);
                let cycle = done + cycle;
                writeln!(desk.out, "cycle {cycle}: output{path} is not {recorded}")?;
                return Ok(REFUSED);
            }
            Err(answer) => return wrong(format!("the call is refused by code {}", answer.code)),
        }
        done += part.len();
    }
    writeln!(desk.out, "agrees: {} cycles", grouped(done))?;
    Ok(GOOD)
}
