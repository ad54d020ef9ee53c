//! Where the program reads and writes, and how it ends.

use std::fmt::Display;
use std::io::{self, ErrorKind, Read, Write};

use crate::circuit::{Accepted, Circuit};
use crate::explain::{refused_sheet, refused_text};
use crate::message::Message;
use crate::source::Source;

/// The statuses with which the program ends.
pub const GOOD: u8 = 0;
pub const REFUSED: u8 = 1;
pub const WRONG: u8 = 2;

pub struct Desk<'a> {
    pub out: &'a mut dyn Write,
    pub err: &'a mut dyn Write,
    /// Whether standard error is a terminal that gets colours.
    pub colours: bool,
    /// Whether standard error is a terminal, which gets the progress of a run.
    pub terminal: bool,
}

/// Why a command ends early.
pub enum Failure {
    /// A refusal, whose messages are printed.
    Refused,
    /// Wrong use, or a file that cannot be read or written.
    Wrong(String),
    /// Nothing can be written.
    Output(io::Error),
}

pub type Done = Result<u8, Failure>;

impl From<io::Error> for Failure {
    fn from(error: io::Error) -> Failure {
        Failure::Output(error)
    }
}

/// Wrong use, or a file that cannot be read.
pub fn wrong<T>(sentence: impl Display) -> Result<T, Failure> {
    Err(Failure::Wrong(sentence.to_string()))
}

/// Why a file cannot be read or written, in words.
fn reason(error: &io::Error) -> String {
    match error.kind() {
        ErrorKind::NotFound => "there is no such file or folder".to_string(),
        ErrorKind::PermissionDenied => "it is not permitted".to_string(),
        ErrorKind::IsADirectory => "it is a folder".to_string(),
        _ => error.to_string(),
    }
}

impl Desk<'_> {
    /// The bytes of a file; of standard input for `-`.
    pub fn bytes(&self, file: &str) -> Result<Vec<u8>, Failure> {
        let mut bytes = Vec::new();
        let read = match file {
            "-" => io::stdin().lock().read_to_end(&mut bytes).map(|_| ()),
            file => std::fs::read(file).map(|read| bytes = read),
        };
        match read {
            Ok(()) => Ok(bytes),
            Err(error) => wrong(format!("{file} cannot be read: {}", reason(&error))),
        }
    }

    /// Writes a file.
    pub fn write(&self, file: &str, bytes: &[u8]) -> Result<(), Failure> {
        match std::fs::write(file, bytes) {
            Ok(()) => Ok(()),
            Err(error) => wrong(format!("{file} cannot be written: {}", reason(&error))),
        }
    }

    /// Writes to a file where one is given, and to standard output else.
    pub fn deliver(&mut self, file: Option<&str>, bytes: &[u8]) -> Result<(), Failure> {
        match file {
            Some(file) => self.write(file, bytes),
            None => Ok(self.out.write_all(bytes)?),
        }
    }

    /// Where a command writes bit by bit: a file, or standard output.
    pub fn sink<'s>(&'s mut self, file: Option<&str>) -> Result<Box<dyn Write + 's>, Failure> {
        let Some(file) = file else { return Ok(Box::new(&mut *self.out)) };
        match std::fs::File::create(file) {
            Ok(created) => Ok(Box::new(io::BufWriter::new(created))),
            Err(error) => wrong(format!("{file} cannot be written: {}", reason(&error))),
        }
    }

    pub fn source(&self, file: &str) -> Result<Source, Failure> {
        Ok(Source { name: file.to_string(), bytes: self.bytes(file)? })
    }

    /// Prints messages about a file.
    pub fn tell(&mut self, source: &Source, messages: &[Message]) -> Result<(), Failure> {
        for message in messages {
            let lines = message.lines(source, self.colours);
            self.err.write_all(lines.as_bytes())?;
        }
        Ok(())
    }

    /// Prints messages, and ends the command as refused.
    pub fn refuse<T>(&mut self, source: &Source, messages: &[Message]) -> Result<T, Failure> {
        self.tell(source, messages)?;
        Err(Failure::Refused)
    }

    /// The circuit of a file, checked or not.
    pub fn circuit(&mut self, file: &str) -> Result<Circuit, Failure> {
        let source = self.source(file)?;
        match Circuit::read(source) {
            Ok(circuit) => Ok(circuit),
            Err((source, answer)) => self.refuse(&source, &refused_text(&source, answer)),
        }
    }

    /// The circuit of a file that the check accepts.
    pub fn accepted(&mut self, file: &str) -> Result<Accepted, Failure> {
        match self.circuit(file)?.accepted() {
            Ok(accepted) => Ok(accepted),
            Err(refused) => {
                let (circuit, answer) = *refused;
                let messages = refused_sheet(&circuit, answer);
                self.refuse(&circuit.source, &messages)
            }
        }
    }
}
