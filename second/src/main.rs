//! Compares the second implementations of the calls with those in the archive,
//! on generated sheets and texts; times them; writes named sheets.

mod file_commands;
mod files;

use std::process::ExitCode;

use second::calls::CALLS;
use second::frame::command::Command;
use second::frame::entry::Entry;

/// Every comparison.
fn comparisons() -> impl Iterator<Item = &'static Entry> {
    CALLS.iter().flat_map(|call| call.comparisons)
}

/// Every command that is no comparison.
fn commands() -> impl Iterator<Item = &'static Command> {
    CALLS.iter().flat_map(|call| call.commands).chain(file_commands::COMMANDS)
}

fn main() -> ExitCode {
    let arguments: Vec<String> = std::env::args().skip(1).collect();
    let words: Vec<&str> = arguments.iter().map(String::as_str).collect();
    run(&words).unwrap_or_else(usage)
}

/// Does what some words ask for, if they are a command.
fn run(words: &[&str]) -> Option<ExitCode> {
    let named = |name: &str| comparisons().find(|comparison| comparison.command == name);
    match words {
        ["comparisons"] => {
            comparisons().for_each(|comparison| println!("{}", comparison.line()));
            Some(ExitCode::SUCCESS)
        }
        ["mistakes", name, rest @ ..] => (named(name)?.mistakes)(rest).map(ExitCode::from),
        [name, rest @ ..] => match named(name) {
            Some(comparison) => (comparison.run)(rest).map(ExitCode::from),
            None => (commands().find(|command| command.name == *name)?.run)(rest),
        },
        [] => None,
    }
}

fn usage() -> ExitCode {
    eprintln!("usage:");
    for comparison in comparisons() {
        eprintln!("second {}", comparison.usage());
    }
    eprintln!("second mistakes COMPARISON [ITS WORDS..]");
    eprintln!("second comparisons");
    for Command { name, parameters, .. } in commands() {
        eprintln!("second {}", format!("{name} {parameters}").trim_end());
    }
    ExitCode::from(2)
}
