//! A command of the program that is no comparison.

use std::process::ExitCode;

pub struct Command {
    pub name: &'static str,
    /// The words after the name, as the usage shows them.
    pub parameters: &'static str,
    /// Does what the words after the name ask for, if they are right.
    pub run: fn(&[&str]) -> Option<ExitCode>,
}
