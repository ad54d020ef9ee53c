//! `sheet possible`: how many constructors are still possible at each output
//! leaf, where part of the input is not known yet.

use second::answers::Answer;
use second::records::{FEEDBACK, FLAT, KIND};

use super::common::{input, notation, state};
use super::options::{FROM, NUMBERS};
use crate::archive;
use crate::arguments::{Arguments, Usage};
use crate::circuit::Circuit;
use crate::command::Command;
use crate::desk::{wrong, Desk, Done, GOOD};
use crate::fillings::reached;
use crate::message::Message;
use crate::values::Notation;

/// The code for a circuit that has a feedback, or a type of too many
/// constructors.
const NOT_FOR_SETS: u8 = 22;

pub const COMMAND: Command = Command {
    name: "possible",
    summary: "How many constructors are still possible at each output leaf?",
    help: "INPUT is the input of one cycle, as a line of a stimulus; ? is what is not known yet.\n\
           A line has an output leaf, how many constructors are still possible there, and how\n\
           many its type has. Their names follow where they are certain: where all are possible,\n\
           or where ways of filling in what is not known lead to each of them. The circuit has\n\
           no feedback, and no type of over 64 constructors. The cycle is not taken.",
    usage: Usage { operands: &["FILE", "INPUT"], flags: &[NUMBERS], options: &[FROM] },
    run,
};

fn run(desk: &mut Desk, arguments: &Arguments) -> Done {
    let accepted = desk.accepted(arguments.operand(0))?;
    let sheet = state(desk, arguments, &accepted)?;
    let leaves = input(desk, arguments, &accepted, 1)?;
    let counts = match archive::possible(&sheet, &leaves) {
        Ok(counts) => counts,
        Err(answer) => return refused(desk, &accepted.circuit, answer),
    };
    // Whatever is filled in, each output is among those that are counted. So where as many are
    // reached, there are no others.
    let Some(found) = reached(&accepted, &sheet, &leaves, &counts) else {
        return wrong("the cycle cannot be shown");
    };
    let types = accepted.circuit.types();
    let (paths, flats) = (types.paths(accepted.output), types.leaves(accepted.output));
    for (leaf, count) in counts.into_iter().map(usize::from).enumerate() {
        let (path, of) = (&paths[leaf], flats[leaf]);
        let all = types.count(of);
        let known: Vec<u8> = match &found[leaf] {
            _ if count == all => (1..=count as u8).collect(),
            found if found.len() == count => found.iter().copied().collect(),
            _ => Vec::new(),
        };
        let name = |constructor: &u8| match notation(arguments) {
            Notation::Names => types.leaf(of, *constructor),
            Notation::Numbers => constructor.to_string(),
        };
        let names: Vec<String> = known.iter().map(name).collect();
        let names =
            if names.is_empty() { String::new() } else { format!(": {}", names.join(", ")) };
        writeln!(desk.out, "output{path}: {count} of {all}{names}")?;
    }
    Ok(GOOD)
}

/// A circuit of which it cannot be told.
fn refused(desk: &mut Desk, circuit: &Circuit, answer: Answer) -> Done {
    let number = answer.place as usize;
    let only = "what can still happen is told only of circuits without";
    let sentence = match circuit.records.get(number).map(|record| record[KIND]) {
        Some(FEEDBACK) if answer.code == NOT_FOR_SETS => {
            format!("this is a feedback: {only} one")
        }
        Some(FLAT) if answer.code == NOT_FOR_SETS => {
            let types = circuit.types();
            let (label, count) = (types.label(number), types.count(number));
            format!("{label} has {count} constructors: {only} a type of over 64")
        }
        _ => return wrong(format!("the call is refused by code {}", answer.code)),
    };
    desk.refuse(&circuit.source, &[Message::error(circuit.place(number), sentence)])
}
