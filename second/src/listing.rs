//! Lines of text: those of a listing, put behind each other, and that of a
//! refusal.

use std::fmt::Write;

use crate::answers::Answer;

/// The line of the output's type.
pub fn type_line(text: &mut String, of: u16) {
    let _ = writeln!(text, "type {of}");
}

/// The line of a cycle: its number, and the value of each leaf.
pub fn cycle_line(text: &mut String, cycle: usize, leaves: &[u8]) {
    let _ = write!(text, "{cycle}:");
    for leaf in leaves {
        let _ = write!(text, " {leaf}");
    }
    text.push('\n');
}

/// The last line: how many cycles there were.
pub fn last_line(text: &mut String, cycles: u32) {
    let _ = writeln!(text, "cycles {cycles}");
}

/// The one line of a refusal.
pub fn refusal_line(answer: Answer) -> String {
    format!("refused {} at {}\n", answer.code, answer.place)
}
