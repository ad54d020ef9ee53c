//! `sheet count`: how many inputs lead an output leaf to each constructor.

use super::common::{output_leaf, state};
use super::options::FROM;
use crate::archive;
use crate::arguments::{Arguments, Usage};
use crate::command::Command;
use crate::desk::{Desk, Done, GOOD};
use crate::message::{Message, Place};

pub const COMMAND: Command = Command {
    name: "count",
    summary: "How many inputs lead an output leaf to each constructor?",
    help:
        "All inputs without an undefined leaf are counted, at most 65,536, for one cycle. LEAF is\n\
           as for press; ? counts those that leave the output leaf undefined.",
    usage: Usage { operands: &["FILE", "[LEAF]"], flags: &[], options: &[FROM] },
    run,
};

fn run(desk: &mut Desk, arguments: &Arguments) -> Done {
    let accepted = desk.accepted(arguments.operand(0))?;
    let sheet = state(desk, arguments, &accepted)?;
    let leaf = output_leaf(arguments, &accepted, 1)?;
    let types = accepted.circuit.types();
    let counters = match archive::count(&sheet, leaf) {
        Ok(counters) => counters,
        Err(_) => {
            let sentence = "it has more than 65,536 inputs without an undefined leaf";
            let message = Message::error(Place::File, sentence);
            return desk.refuse(&accepted.circuit.source, &[message]);
        }
    };
    let of = types.leaves(accepted.output)[leaf];
    for constructor in (1..=types.count(of)).chain([0]) {
        let name = types.leaf(of, constructor as u8);
        writeln!(desk.out, "{name}: {}", counters[constructor])?;
    }
    Ok(GOOD)
}
