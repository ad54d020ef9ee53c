//! A circuit that was read, as a text or as a sheet: its records, and where in
//! the text each comes from.

use second::answers::{Answer, ACCEPTED};
use second::records::{read, Record, A};

use crate::archive;
use crate::layout::{layout, Layout};
use crate::message::Place;
use crate::source::{Piece, Source};
use crate::types::Types;

pub struct Circuit {
    pub source: Source,
    pub sheet: Vec<u8>,
    pub records: Vec<Record>,
    /// Where the records come from; only where they are the sheet's.
    pub layout: Option<Layout>,
}

/// A circuit that the check accepts.
pub struct Accepted {
    pub circuit: Circuit,
    pub input: usize,
    pub output: usize,
}

impl Circuit {
    /// Reads a text or a sheet; a text is translated, or refused by 13 to 15.
    pub fn read(source: Source) -> Result<Circuit, (Source, Answer)> {
        if source.is_sheet() {
            let (sheet, records) = (source.bytes.clone(), read(&source.bytes));
            return Ok(Circuit { source, sheet, records, layout: None });
        }
        match archive::translate(&source.bytes) {
            Ok(sheet) => {
                let records = read(&sheet);
                let layout = layout(&source.bytes).filter(|layout| layout.is(&sheet));
                Ok(Circuit { source, sheet, records, layout })
            }
            Err(answer) => Err((source, answer)),
        }
    }

    pub fn types(&self) -> Types<'_> {
        Types { records: &self.records, layout: self.layout.as_ref() }
    }

    /// The answer of the check.
    pub fn check(&self) -> Answer {
        archive::check(&self.sheet)
    }

    /// The piece of the text that a record comes from.
    pub fn piece(&self, record: usize) -> Option<Piece> {
        self.layout.as_ref()?.piece(record)
    }

    /// Where a message about a record points to.
    pub fn place(&self, record: usize) -> Place {
        self.piece(record).map_or(Place::Record(record), Place::of)
    }

    /// `LINE:COLUMN` of a record, or its number.
    pub fn position(&self, record: usize) -> String {
        match self.piece(record) {
            Some(piece) => self.source.position(piece.place),
            None => format!("record {record}"),
        }
    }

    /// The circuit, if the check accepts it; else its answer.
    pub fn accepted(self) -> Result<Accepted, Box<(Circuit, Answer)>> {
        let answer = self.check();
        if answer.code != ACCEPTED {
            return Err(Box::new((self, answer)));
        }
        let (input, output) = (usize::from(self.records[0][A]), answer.place as usize);
        Ok(Accepted { circuit: self, input, output })
    }
}
