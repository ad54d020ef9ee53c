//! `sheet draw`: the circuit as a graph.

use std::io::{Read, Write};
use std::process::{Command as Process, Stdio};
use std::thread;
use std::time::{Duration, Instant};

use super::options::OUTPUT;
use crate::arguments::{Arguments, Usage};
use crate::command::Command;
use crate::desk::{Desk, Done, GOOD};
use crate::drawing;
use crate::graph::graph;

pub const COMMAND: Command = Command {
    name: "draw",
    summary: "Draws a circuit, for Graphviz or as SVG.",
    help:
        "Without --svg the graph is printed in the language of Graphviz. With it the program dot\n\
           makes the picture, if it is there and the circuit has at most 500 nodes; else the\n\
           circuit is laid out without it, in columns.",
    usage: Usage {
        operands: &["FILE"],
        flags: &[("--svg", "a picture in place of the graph")],
        options: &[OUTPUT],
    },
    run,
};

fn run(desk: &mut Desk, arguments: &Arguments) -> Done {
    let accepted = desk.accepted(arguments.operand(0))?;
    let graph = graph(&accepted);
    let dot = graph.dot(&accepted.circuit.source.name);
    let by_dot = || Some(dot.clone()).filter(|_| graph.nodes.len() <= LARGEST).and_then(by_dot);
    let drawn = match arguments.flag("--svg") {
        false => dot.into_bytes(),
        true => by_dot().unwrap_or_else(|| drawing::file(&graph).into_bytes()),
    };
    desk.deliver(arguments.option(OUTPUT.0), &drawn)?;
    Ok(GOOD)
}

/// The largest graph that dot gets, in nodes, and how long it may take: on more
/// than a thousand nodes it takes minutes.
const LARGEST: usize = 500;
const PATIENCE: Duration = Duration::from_secs(10);

/// The picture that the program dot makes, if it is there and makes one.
fn by_dot(graph: String) -> Option<Vec<u8>> {
    let mut dot = Process::new("dot")
        .arg("-Tsvg")
        .stdin(Stdio::piped())
        .stdout(Stdio::piped())
        .stderr(Stdio::null())
        .spawn()
        .ok()?;
    let (mut input, mut output) = (dot.stdin.take()?, dot.stdout.take()?);
    let writer = thread::spawn(move || input.write_all(graph.as_bytes()).is_ok());
    let reader = thread::spawn(move || {
        let mut picture = Vec::new();
        output.read_to_end(&mut picture).map(|_| picture)
    });
    let began = Instant::now();
    let status = loop {
        match dot.try_wait().ok()? {
            Some(status) => break status,
            None if began.elapsed() > PATIENCE => {
                let _ = dot.kill();
                break dot.wait().ok()?;
            }
            None => thread::sleep(Duration::from_millis(5)),
        }
    };
    let written = writer.join().unwrap_or(false);
    let picture = reader.join().ok()?.ok()?;
    (written && status.success()).then_some(picture)
}
