//! Files: reading them, with code 12, and writing them; and what is printed
//! instead where there is a refusal.

use std::process::ExitCode;

use second::answers::{Answer, NO_FILE};
use second::listing::refusal_line;

/// What a file holds; 12 at a place if it can't be read.
pub fn read(file: &str, place: u32) -> Result<Vec<u8>, Answer> {
    std::fs::read(file).map_err(|_| Answer { code: NO_FILE, place })
}

/// Writes a file, or tells why it can't be written.
pub fn write(file: &str, bytes: &[u8]) -> ExitCode {
    match std::fs::write(file, bytes) {
        Ok(()) => ExitCode::SUCCESS,
        Err(error) => {
            eprintln!("{file}: {error}");
            ExitCode::FAILURE
        }
    }
}

/// Prints a refusal; the status is the command's.
pub fn refuse(answer: Answer, status: ExitCode) -> ExitCode {
    print!("{}", refusal_line(answer));
    status
}
