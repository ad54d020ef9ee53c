//! The commands, each in a module of its own, and those that need a call that
//! the archive does not have.

#[cfg(call_carry)]
mod carry;
mod check;
#[cfg(call_run)]
mod common;
#[cfg(call_count)]
mod count;
mod draw;
mod options;
#[cfg(call_run)]
mod page;
#[cfg(call_possible)]
mod possible;
#[cfg(call_press)]
mod press;
mod records;
#[cfg(call_replay)]
mod replay;
#[cfg(call_run)]
mod run;
#[cfg(call_run)]
mod show;
mod translate;
#[cfg(call_run)]
mod wave;

use crate::archive;
use crate::command::Command;

pub const COMMANDS: &[Command] = &[
    check::COMMAND,
    #[cfg(call_run)]
    run::COMMAND,
    #[cfg(call_run)]
    show::COMMAND,
    #[cfg(call_run)]
    wave::COMMAND,
    #[cfg(call_run)]
    page::COMMAND,
    draw::COMMAND,
    #[cfg(call_carry)]
    carry::COMMAND,
    #[cfg(call_press)]
    press::COMMAND,
    #[cfg(call_count)]
    count::COMMAND,
    #[cfg(call_possible)]
    possible::COMMAND,
    #[cfg(call_replay)]
    replay::COMMAND,
    translate::COMMAND,
    records::COMMAND,
];

/// Each command that needs a call beyond the check, and the call.
const NEEDS: [(&str, &str); 9] = [
    ("run", "sheet_run"),
    ("show", "sheet_preview"),
    ("wave", "sheet_run"),
    ("page", "sheet_run"),
    ("carry", "sheet_carry"),
    ("press", "sheet_press"),
    ("count", "sheet_count"),
    ("possible", "sheet_possible"),
    ("replay", "sheet_replay"),
];

/// The commands that the archive has no call for.
pub fn absent() -> impl Iterator<Item = (&'static str, &'static str)> {
    NEEDS.into_iter().filter(|(_, call)| !archive::CALLS.split(' ').any(|found| found == *call))
}
