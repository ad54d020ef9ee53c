//! The one line that `sheetreplay` prints for the files of a folder.

use super::replay::{Call, Finding, Outcome, Place};
use crate::answers::{Answer, NO_FILE};
use crate::listing::refusal_line;

/// What the three files hold, in the order in which they are tried: the sheet,
/// the stimulus and the record; none for one that can't be opened.
pub type Files<'a> = [Option<&'a [u8]>; 3];

/// The call on three files: its next slice is as long as the sheet. Code 12 at
/// the first file that can't be opened, counted from 1.
pub fn call_on<'a>(files: Files<'a>) -> Result<Call<'a>, Answer> {
    let [Some(sheet), Some(stimulus), Some(recorded)] = files else {
        let missing = files.iter().take_while(|file| file.is_some()).count();
        return Err(Answer { code: NO_FILE, place: missing as u32 + 1 });
    };
    Ok(Call { sheet, stimulus, recorded, next_length: sheet.len() })
}

/// The line of what a replay gives.
pub fn line(outcome: &Outcome) -> String {
    match outcome.found {
        None => refusal_line(outcome.answer),
        Some(Finding::Agrees(cycles)) => format!("agrees {cycles}\n"),
        Some(Finding::Differs(Place { cycle, leaf })) => format!("cycle {cycle} leaf {leaf}\n"),
    }
}
