//! What a command is.

use crate::arguments::{Arguments, Usage};
use crate::desk::{Desk, Done};

pub struct Command {
    pub name: &'static str,
    /// What it does, in a line and in full.
    pub summary: &'static str,
    pub help: &'static str,
    pub usage: Usage,
    pub run: fn(&mut Desk, &Arguments) -> Done,
}
