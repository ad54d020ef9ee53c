//! A comparison as the list of all of them has it.

use super::command::Command;
use super::comparison::Comparison;
use super::plan;

pub struct Entry {
    pub command: &'static str,
    /// The functions of the archive that it compares.
    pub calls: &'static [&'static str],
    parameters: &'static [&'static str],
    cases: &'static str,
    /// Compares, if the words are right; the status.
    pub run: fn(&[&str]) -> Option<u8>,
    /// Compares with each mistake, if the words are right; the status.
    pub mistakes: fn(&[&str]) -> Option<u8>,
}

impl Entry {
    pub const fn of<C: Comparison>() -> Entry {
        Entry {
            command: C::COMMAND,
            calls: C::CALLS,
            parameters: C::PARAMETERS,
            cases: C::CASES,
            run: plan::run::<C>,
            mistakes: plan::mistakes::<C>,
        }
    }

    /// The command, and the functions that it compares.
    pub fn line(&self) -> String {
        let words: Vec<&str> =
            [self.command].into_iter().chain(self.calls.iter().copied()).collect();
        words.join(" ")
    }

    /// The words of the command, as its usage shows them.
    pub fn usage(&self) -> String {
        let words: Vec<&str> =
            [self.command].into_iter().chain(self.parameters.iter().copied()).collect();
        let cases = self.cases;
        format!("{} [--seed N] [{cases} N] [--threads N] [--mistake NAME]", words.join(" "))
    }
}

/// What a call brings: its comparisons, and other commands about it.
pub struct Call {
    pub comparisons: &'static [Entry],
    pub commands: &'static [Command],
}
