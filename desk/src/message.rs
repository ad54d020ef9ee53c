//! Messages as gcc prints them: file, line and column, a sentence, the line of
//! the text and a caret.

use std::fmt::Write;

use crate::source::{Piece, Source};

#[derive(Clone, Copy, PartialEq, Eq, Debug)]
pub enum Kind {
    Error,
    Warning,
    Note,
}

/// Where a message points to: a byte, and what is underlined around it.
#[derive(Clone, Copy, PartialEq, Eq, Debug)]
pub struct Mark {
    pub caret: usize,
    pub around: Piece,
}

#[derive(Clone, PartialEq, Eq, Debug)]
pub enum Place {
    /// A place in a text.
    At(Mark),
    /// A record of a sheet.
    Record(usize),
    /// The file as a whole.
    File,
}

#[derive(Clone, PartialEq, Eq, Debug)]
pub struct Message {
    pub kind: Kind,
    pub place: Place,
    pub sentence: String,
}

impl Message {
    pub fn new(kind: Kind, place: Place, sentence: impl Into<String>) -> Message {
        Message { kind, place, sentence: sentence.into() }
    }

    pub fn error(place: Place, sentence: impl Into<String>) -> Message {
        Message::new(Kind::Error, place, sentence)
    }

    pub fn note(piece: Piece, sentence: impl Into<String>) -> Message {
        Message::new(Kind::Note, Place::of(piece), sentence)
    }

    /// The lines of the message, with colours or without.
    pub fn lines(&self, source: &Source, colours: bool) -> String {
        let paint = Paint { colours };
        let (kind, colour) = match self.kind {
            Kind::Error => ("error:", "1;31"),
            Kind::Warning => ("warning:", "1;35"),
            Kind::Note => ("note:", "1;36"),
        };
        let file = &source.name;
        let place = match &self.place {
            Place::At(mark) => format!("{file}:{}:", source.position(mark.caret)),
            Place::Record(number) => format!("{file}: record {number}:"),
            Place::File => format!("{file}:"),
        };
        let (place, kind) = (paint.with("1", &place), paint.with(colour, kind));
        let mut lines = format!("{place} {kind} {}\n", self.sentence);
        if let Place::At(mark) = &self.place {
            excerpt(source, mark, &paint, &mut lines);
        }
        lines
    }
}

impl Place {
    /// A piece, with the caret at its first byte.
    pub fn of(piece: Piece) -> Place {
        Place::At(Mark { caret: piece.place, around: piece })
    }
}

struct Paint {
    colours: bool,
}

impl Paint {
    fn with(&self, colour: &str, text: &str) -> String {
        if self.colours {
            format!("\x1b[{colour}m{text}\x1b[0m")
        } else {
            text.to_string()
        }
    }
}

/// The most characters of a line that are shown.
const WIDTH: usize = 160;

/// The line of a mark and the marks below it.
fn excerpt(source: &Source, mark: &Mark, paint: &Paint, lines: &mut String) {
    let (start, bytes) = source.line(mark.caret);
    let (number, _) = source.line_and_column(mark.caret);
    // Each character with its first byte and its end.
    let shown: Vec<(Piece, char)> = characters(bytes)
        .map(|(piece, c)| (Piece::new(start + piece.place, start + piece.end), c))
        .collect();
    let at = |place: usize| shown.iter().take_while(|(piece, _)| piece.end <= place).count();
    let caret = at(mark.caret);
    let (low, high) = (at(mark.around.place).min(caret), at(mark.around.end).max(caret + 1));
    let from = if shown.len() > WIDTH { caret.saturating_sub(WIDTH / 2) } else { 0 };
    let to = shown.len().min(from + WIDTH);
    let cut = if from > 0 { ".." } else { "" };
    let more = if to < shown.len() { ".." } else { "" };
    let line: String = shown[from.min(to)..to].iter().map(|(_, c)| *c).collect();
    let line = format!("{number:5} | {cut}{line}{more}");
    let marks: String = (from..high.min(from + WIDTH).max(caret + 1))
        .map(|column| match column {
            _ if column == caret => '^',
            _ if (low..high).contains(&column) => '~',
            _ => ' ',
        })
        .collect();
    let blank = " ".repeat(cut.len());
    let _ = writeln!(lines, "{}", line.trim_end());
    let _ = writeln!(lines, "      | {blank}{}", paint.with("1;32", marks.trim_end()));
}

/// The characters of a line that can be seen, each with its first byte: what
/// cannot be printed becomes a point, a tab a space, and a byte order mark and
/// the carriage return at the end are left out.
fn characters(bytes: &[u8]) -> impl Iterator<Item = (Piece, char)> + '_ {
    let line = bytes.strip_suffix(b"\r").unwrap_or(bytes);
    let mut at = 0;
    std::iter::from_fn(move || {
        let rest = &line[at..];
        let length = match rest.first()? {
            0..=0x7f => 1,
            0xc0..=0xdf => 2,
            0xe0..=0xef => 3,
            _ => 4,
        };
        let bytes = &rest[..length.min(rest.len())];
        let character = std::str::from_utf8(bytes).ok().and_then(|s| s.chars().next());
        let piece = Piece::new(at, at + character.map_or(1, char::len_utf8));
        at = piece.end;
        Some((
            piece,
            match character {
                Some('\t') => ' ',
                Some(c) if !c.is_control() => c,
                _ => '.',
            },
        ))
    })
    .filter(|(_, character)| *character != '\u{feff}')
}
