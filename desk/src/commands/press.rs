//! `sheet press`: which single change of the input alters an output.

use super::common::{input, output_leaf, state};
use super::options::{FROM, NUMBERS};
use crate::archive;
use crate::arguments::{Arguments, Usage};
use crate::command::Command;
use crate::desk::{wrong, Desk, Done, GOOD};

pub const COMMAND: Command = Command {
    name: "press",
    summary: "Which change of one input leaf alters an output leaf?",
    help: "INPUT is the input of one cycle, as a line of a stimulus. LEAF is an output leaf, as\n\
           output[1] or by its number from 0; it may be left out where the output has one leaf.\n\
           The lowest input leaf that can do it is told, and its lowest constructor.",
    usage: Usage { operands: &["FILE", "INPUT", "[LEAF]"], flags: &[NUMBERS], options: &[FROM] },
    run,
};

fn run(desk: &mut Desk, arguments: &Arguments) -> Done {
    let accepted = desk.accepted(arguments.operand(0))?;
    let sheet = state(desk, arguments, &accepted)?;
    let before = input(desk, arguments, &accepted, 1)?;
    let leaf = output_leaf(arguments, &accepted, 2)?;
    let types = accepted.circuit.types();
    let output = format!("output{}", types.paths(accepted.output)[leaf]);
    let (at, constructor) = match archive::press(&sheet, &before, leaf) {
        Ok(Some(found)) => found,
        Ok(None) => {
            writeln!(desk.out, "no change of one input leaf alters {output}")?;
            return Ok(GOOD);
        }
        Err(answer) => return wrong(format!("the call is refused by code {}", answer.code)),
    };
    let mut after = before.clone();
    after[at] = constructor;
    let outputs = [archive::preview(&sheet, &before), archive::preview(&sheet, &after)];
    let [Ok(old), Ok(new)] = outputs else { return wrong("the cycle cannot be shown") };
    let (of, out) = (types.leaves(accepted.input)[at], types.leaves(accepted.output)[leaf]);
    let path = &types.paths(accepted.input)[at];
    let change = format!("{} to {}", types.leaf(of, before[at]), types.leaf(of, constructor));
    let effect = format!("{} to {}", types.leaf(out, old[leaf]), types.leaf(out, new[leaf]));
    writeln!(desk.out, "input{path} from {change}: {output} from {effect}")?;
    Ok(GOOD)
}
