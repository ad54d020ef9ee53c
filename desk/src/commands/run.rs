//! `sheet run`: what a circuit puts out for a stimulus, cycle by cycle.

use std::time::{Duration, Instant};

use super::common::{notation, number_list, state};
use super::options::{FROM, NUMBERS};
use crate::archive;
use crate::arguments::{Arguments, Usage};
use crate::circuit::Accepted;
use crate::command::Command;
use crate::desk::{wrong, Desk, Done, Failure, GOOD};
use crate::stimulus::{self, Stimulus};
use crate::wording::grouped;

pub const COMMAND: Command = Command {
    name: "run",
    summary: "Runs a circuit over a stimulus, and prints its outputs.",
    help: "STIMULUS has the input of one cycle a line, as a text has it: hi, (hi, lo), and ? for\n\
           undefined. hi * 20 stands for twenty cycles; # begins a comment. A sheet has no names:\n\
           there a constructor is its number. A stimulus whose name ends with .bin is bytes, one\n\
           a leaf.\n\
           Each line of the output is the number of a cycle, from 0, and the value put out.",
    usage: Usage {
        operands: &["FILE", "STIMULUS"],
        flags: &[NUMBERS],
        options: &[FROM, ("--next", "SHEET", "writes the sheet after the last cycle there")],
    },
    run,
};

/// The time that one call should take, and the one after which progress shows.
const CALL: Duration = Duration::from_millis(100);
const PATIENCE: Duration = Duration::from_secs(1);

fn run(desk: &mut Desk, arguments: &Arguments) -> Done {
    let accepted = desk.accepted(arguments.operand(0))?;
    let notation = notation(arguments);
    let sheet = state(desk, arguments, &accepted)?;
    let stimulus = stimulus::read(desk, arguments.operand(1), &accepted, notation)?;
    let types = accepted.circuit.types();
    let width = types.leaves(accepted.output).len();
    let numbers = arguments.flag(NUMBERS.0);
    let mut cycle: u64 = 0;
    let next = in_calls(desk, &accepted, sheet, &stimulus, |desk, outputs| {
        for leaves in outputs.chunks_exact(width) {
            let shown = match numbers {
                true => number_list(leaves),
                false => types.value(accepted.output, leaves),
            };
            writeln!(desk.out, "{cycle}: {shown}")?;
            cycle += 1;
        }
        Ok(())
    })?;
    if let Some(file) = arguments.option("--next") {
        desk.write(file, &next)?;
    }
    Ok(GOOD)
}

/// Runs all cycles in calls one after the other, and gives the sheet after them.
fn in_calls(
    desk: &mut Desk,
    accepted: &Accepted,
    mut sheet: Vec<u8>,
    stimulus: &Stimulus,
    mut put_out: impl FnMut(&mut Desk, &[u8]) -> Result<(), Failure>,
) -> Result<Vec<u8>, Failure> {
    let width = accepted.circuit.types().leaves(accepted.output).len();
    let most = archive::LONGEST_STIMULUS / stimulus.width;
    let (began, all) = (Instant::now(), stimulus.cycles());
    let (mut size, mut done, mut shown) = (1, 0, false);
    let mut inputs = stimulus.iter();
    loop {
        let part: Vec<&[u8]> = inputs.by_ref().take(size).collect();
        if part.is_empty() {
            break;
        }
        let call = Instant::now();
        let (outputs, next) = match archive::run(&sheet, &part.concat(), part.len() * width) {
            Ok(ran) => ran,
            Err(answer) => {
                return wrong(format!("the run is refused by code {}", answer.code));
            }
        };
        sheet = next;
        done += part.len() as u64;
        put_out(desk, &outputs)?;
        size = match call.elapsed() {
            took if took < CALL => (2 * size).min(most),
            took if took > 2 * CALL => (size / 2).max(1),
            _ => size,
        };
        if desk.terminal && began.elapsed() > PATIENCE {
            shown = true;
            progress(desk, done, all)?;
        }
    }
    if shown {
        writeln!(desk.err)?;
    }
    Ok(sheet)
}

/// How far a run is, over what was said before.
fn progress(desk: &mut Desk, done: u64, all: u64) -> Result<(), Failure> {
    let (done, all) = (grouped(done as usize), grouped(all as usize));
    write!(desk.err, "\r{done} of {all} cycles")?;
    Ok(desk.err.flush()?)
}
