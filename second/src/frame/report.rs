//! What reports of differences have in common.

use std::fmt::Write;

use super::lender::{Left, Lending};
use crate::answers::Answer;
use crate::records::{read, MAX_RECORDS};

/// How a slice is shown.
#[derive(Clone, Copy, PartialEq, Eq)]
pub enum Shown {
    /// As records and as hex.
    Sheet,
    Bytes,
    /// As characters.
    Text,
}

/// The first words of every report.
pub const FOUND: &str = "difference found";

/// The records of a sheet in words, a line each, but for those past 4,096.
pub fn records(sheet: &[u8]) -> String {
    let mut text = String::new();
    for (number, record) in read(sheet).iter().take(MAX_RECORDS).enumerate() {
        let words = record.map(|word| word.to_string()).join(" ");
        let _ = writeln!(text, "{number}: {words}");
    }
    text
}

/// A packed answer in words.
pub fn answer(packed: u64) -> String {
    let Answer { code, place } = Answer::unpacked(packed);
    format!("{code} at {place}")
}

pub fn hex(bytes: &[u8]) -> String {
    bytes.iter().map(|byte| format!("{byte:02x}")).collect()
}

/// A slice that a call reads.
pub fn slice(name: &str, shown: Shown, bytes: &[u8]) -> String {
    let length = bytes.len();
    match shown {
        Shown::Sheet => format!("{}{name}, {length} bytes: {}\n", records(bytes), hex(bytes)),
        Shown::Bytes => format!("{name}, {length} bytes: {}\n", hex(bytes)),
        Shown::Text => format!("{name}, {length} bytes: {}\n", bytes.escape_ascii()),
    }
}

/// What a call answers and leaves, in words.
pub fn left(name: &str, names: &[&str], left: &Left) -> String {
    let mut text = format!("{name}{}\n", answer(left.packed));
    for (name, slice) in names.iter().zip(&left.slices) {
        let _ = writeln!(text, "  {name} slice, {} bytes: {}", slice.len(), hex(slice));
    }
    text
}

/// A call on which the two implementations differ.
pub fn difference(
    source: &str,
    read: &[(&str, Shown, &[u8])],
    names: &[&str],
    second: &Left,
    lending: &Lending,
    remarks: &[String],
) -> String {
    let mut text = format!("{FOUND}, in: {source}\n");
    read.iter().for_each(|(name, shown, bytes)| text.push_str(&slice(name, *shown, bytes)));
    let _ = writeln!(text, "slices placed: {:?}", lending.placement);
    text.push_str(&left("second:  ", names, second));
    text.push_str(&left("archive: ", names, &lending.left));
    for (name, (ours, theirs)) in names.iter().zip(second.slices.iter().zip(&lending.left.slices)) {
        if let Some(at) = ours.iter().zip(theirs).position(|(s, a)| s != a) {
            let _ = writeln!(text, "the {name} slices differ first at byte {at}");
        }
    }
    remarks.iter().for_each(|remark| text.push_str(&format!("{remark}\n")));
    text
}
