//! A file that was read: its lines and columns.

/// The bytes of a file, and its name as it was given.
pub struct Source {
    pub name: String,
    pub bytes: Vec<u8>,
}

/// A piece of a text, from its first byte up to its end.
#[derive(Clone, Copy, PartialEq, Eq, Debug)]
pub struct Piece {
    pub place: usize,
    pub end: usize,
}

impl Piece {
    pub fn new(place: usize, end: usize) -> Piece {
        Piece { place, end }
    }
}

impl Source {
    /// Whether the file holds a sheet: by its name, or by the first word of a
    /// header, with which no text begins.
    pub fn is_sheet(&self) -> bool {
        self.name.ends_with(".bin") || self.bytes.starts_with(&[1, 0])
    }

    /// Where the line of a byte begins.
    fn line_start(&self, place: usize) -> usize {
        let before = &self.bytes[..place.min(self.bytes.len())];
        before.iter().rposition(|byte| *byte == b'\n').map_or(0, |at| at + 1)
    }

    /// The line of a byte and its column, both from 1; columns are bytes.
    pub fn line_and_column(&self, place: usize) -> (usize, usize) {
        let start = self.line_start(place);
        let line = self.bytes[..start].iter().filter(|byte| **byte == b'\n').count();
        (line + 1, place - start + 1)
    }

    /// `LINE:COLUMN` of a byte.
    pub fn position(&self, place: usize) -> String {
        let (line, column) = self.line_and_column(place);
        format!("{line}:{column}")
    }

    /// The bytes of the line of a byte, without its end, and where it begins.
    pub fn line(&self, place: usize) -> (usize, &[u8]) {
        let start = self.line_start(place);
        let rest = &self.bytes[start..];
        let length = rest.iter().position(|byte| *byte == b'\n').unwrap_or(rest.len());
        (start, &rest[..length])
    }

    /// The bytes of a piece as text.
    pub fn letters(&self, piece: Piece) -> String {
        String::from_utf8_lossy(&self.bytes[piece.place..piece.end]).into_owned()
    }
}
