//! Stimuli: one cycle a line, `* COUNT` for repetition, `#` for comments; or
//! the bytes of a file whose name ends with .bin.

use crate::circuit::Accepted;
use crate::desk::{Desk, Failure};
use crate::message::{Message, Place};
use crate::source::{Piece, Source};
use crate::types::Types;
use crate::values::{Fault, Notation, Reader};
use crate::wording::grouped;

pub struct Stimulus {
    pub source: Source,
    /// The leaves of the cycles, one line behind the other.
    leaves: Vec<u8>,
    /// How often each is taken.
    times: Vec<u64>,
    /// The leaves of one cycle.
    pub width: usize,
}

impl Stimulus {
    /// How many cycles there are.
    pub fn cycles(&self) -> u64 {
        self.times.iter().fold(0, |sum, times| sum.saturating_add(*times))
    }

    /// The cycles one by one.
    pub fn iter(&self) -> impl Iterator<Item = &[u8]> + '_ {
        let lines = self.leaves.chunks_exact(self.width).zip(&self.times);
        lines.flat_map(|(leaves, times)| (0..*times).map(move |_| leaves))
    }
}

/// The stimulus of a file for a circuit.
pub fn read(
    desk: &mut Desk,
    file: &str,
    accepted: &Accepted,
    notation: Notation,
) -> Result<Stimulus, Failure> {
    let values = Values { of: accepted.input, numbered: false };
    read_values(desk, file, accepted, notation, values)
}

/// The outputs of a file, with the numbers of their cycles before them or
/// without.
pub fn read_outputs(
    desk: &mut Desk,
    file: &str,
    accepted: &Accepted,
    notation: Notation,
) -> Result<Stimulus, Failure> {
    let values = Values { of: accepted.output, numbered: true };
    read_values(desk, file, accepted, notation, values)
}

/// What the values of a file are.
#[derive(Clone, Copy)]
struct Values {
    of: usize,
    /// Whether a number and a colon may stand before a value.
    numbered: bool,
}

fn read_values(
    desk: &mut Desk,
    file: &str,
    accepted: &Accepted,
    notation: Notation,
    values: Values,
) -> Result<Stimulus, Failure> {
    let source = desk.source(file)?;
    let types = accepted.circuit.types();
    let width = types.leaves(values.of).len();
    let mut stimulus = Stimulus { source, leaves: Vec::new(), times: Vec::new(), width };
    let read = if file.ends_with(".bin") {
        stimulus.read_bytes(types, values.of)
    } else {
        stimulus.read_lines(&Reader { types, notation }, values)
    };
    match read {
        Ok(()) => Ok(stimulus),
        Err(message) => desk.refuse(&stimulus.source, &[message]),
    }
}

impl Stimulus {
    fn read_bytes(&mut self, types: Types, of: usize) -> Result<(), Message> {
        let bytes = &self.source.bytes;
        let asked = types.leaves(of);
        if bytes.len() % self.width != 0 {
            let (bytes, width) = (grouped(bytes.len()), self.width);
            let sentence = format!("it has {bytes} bytes, which are no whole cycles of {width}");
            return Err(Message::error(Place::File, sentence));
        }
        for (at, byte) in bytes.iter().enumerate() {
            let of = asked[at % self.width];
            let count = types.count(of);
            if usize::from(*byte) > count {
                let of = types.label(of);
                let sentence = format!("byte {at} is {byte}, and {of} has {count} constructors");
                return Err(Message::error(Place::File, sentence));
            }
        }
        self.leaves = bytes.clone();
        self.times = vec![1; bytes.len() / self.width];
        Ok(())
    }

    fn read_lines(&mut self, reader: &Reader, values: Values) -> Result<(), Message> {
        let mut start = 0;
        for line in self.source.bytes.split(|byte| *byte == b'\n') {
            let at = |fault: Fault| {
                let piece = Piece::new(start + fault.piece.place, start + fault.piece.end);
                Message::error(Place::of(piece), fault.sentence)
            };
            let (leaves, times) = read_line(line, reader, values).map_err(at)?;
            if times > 0 {
                self.leaves.extend(leaves);
                self.times.push(times);
            }
            start += line.len() + 1;
        }
        Ok(())
    }
}

/// The leaves of a line, and how often they are taken; never for a line that
/// holds no value.
fn read_line(line: &[u8], reader: &Reader, values: Values) -> Result<(Vec<u8>, u64), Fault> {
    let end = line.iter().position(|byte| *byte == b'#').unwrap_or(line.len());
    let text = std::str::from_utf8(&line[..end]).map_err(|error| {
        let place = error.valid_up_to();
        let sentence = "this byte is no character".to_string();
        Fault { piece: Piece::new(place, place + 1), sentence }
    })?;
    let (value, times) = match text.split_once('*') {
        Some((value, times)) => (value, Some(times)),
        None => (text, None),
    };
    if value.trim().is_empty() && times.is_none() {
        return Ok((Vec::new(), 0));
    }
    let number = |(number, _): &(&str, &str)| number.trim().bytes().all(|b| b.is_ascii_digit());
    let before = value.split_once(':').filter(number).filter(|_| values.numbered);
    let skipped = before.map_or(0, |(number, _)| number.len() + 1);
    let leaves = reader.read(value[skipped..].trim_end(), values.of).map_err(|fault| {
        let piece = Piece::new(fault.piece.place + skipped, fault.piece.end + skipped);
        Fault { piece, ..fault }
    })?;
    let Some(times) = times else { return Ok((leaves, 1)) };
    let from = value.len() + 1;
    match times.trim().parse() {
        Ok(times) => Ok((leaves, times)),
        Err(_) => {
            let blanks = times.len() - times.trim_start().len();
            let piece = Piece::new(from + blanks, from + blanks + times.trim().len().max(1));
            let sentence = "after `*` stands how often, a number".to_string();
            Err(Fault { piece, sentence })
        }
    }
}
