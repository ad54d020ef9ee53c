//! The calls of the archive. What a call needs of the stack is at most 2 MiB:
//! `main` begins a thread with more.

#[cfg(call_run)]
mod simulated;

use second::answers::{Answer, ACCEPTED};
use second::records::{MAX_RECORDS, RECORD_BYTES};

#[cfg(call_run)]
pub use simulated::*;

/// The calls that the archive has, and the version of the header beside it.
pub const CALLS: &str = env!("SHEET_CALLS");
pub const ARCHIVE: &str = env!("SHEET_ARCHIVE_NAME");
pub const HEADER_VERSION: &str = env!("SHEET_HEADER_VERSION");

/// The most bytes of a sheet and of a stimulus.
pub const LONGEST: usize = RECORD_BYTES * MAX_RECORDS;
pub const LONGEST_STIMULUS: usize = 65_535;

extern "C" {
    fn sheet_check(sheet: *const u8, length: usize) -> u64;
    fn sheet_translate(
        text: *const u8,
        text_length: usize,
        sheet: *mut u8,
        sheet_length: usize,
    ) -> u64;
}

/// Whether the sheet is accepted, and with which type.
pub fn check(sheet: &[u8]) -> Answer {
    // The slice is valid for its length.
    Answer::unpacked(unsafe { sheet_check(sheet.as_ptr(), sheet.len()) })
}

/// The sheet of a text.
pub fn translate(text: &[u8]) -> Result<Vec<u8>, Answer> {
    let mut sheet = vec![0; LONGEST];
    // The slices are valid for their lengths and do not overlap.
    let packed =
        unsafe { sheet_translate(text.as_ptr(), text.len(), sheet.as_mut_ptr(), sheet.len()) };
    let answer = Answer::unpacked(packed);
    if answer.code != ACCEPTED {
        return Err(answer);
    }
    sheet.truncate(answer.place as usize);
    Ok(sheet)
}

/// The answer of the translation of a text, without its sheet.
pub fn translation_answer(text: &[u8]) -> Answer {
    let mut none = [0; 1];
    // The slices are valid for their lengths and do not overlap.
    Answer::unpacked(unsafe { sheet_translate(text.as_ptr(), text.len(), none.as_mut_ptr(), 0) })
}
