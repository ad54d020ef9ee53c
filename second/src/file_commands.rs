//! The commands that read and write files: named sheets, listings and next
//! sheets, the sheet of a text.

use std::process::ExitCode;

use second::answers::{Answer, ACCEPTED};
use second::frame::command::Command;
use second::printout::printout;
use second::records::{MAX_RECORDS, RECORD_BYTES};
use second::text::translator::{translate, Outcome};
use second::{samples, shapes};

use crate::files;

pub const COMMANDS: &[Command] = &[
    Command { name: "shapes", parameters: "", run: shapes },
    Command { name: "emit", parameters: "NAME FILE", run: emit },
    Command { name: "listing", parameters: "SHEET STIM [FILE]", run: list },
    Command { name: "next", parameters: "SHEET STIM FILE", run: write_next },
    Command { name: "translate", parameters: "TEXT FILE", run: write_translated },
];

fn shapes(words: &[&str]) -> Option<ExitCode> {
    words.is_empty().then(|| {
        shapes::all().for_each(|(name, _)| println!("{name}"));
        ExitCode::SUCCESS
    })
}

fn emit(words: &[&str]) -> Option<ExitCode> {
    let [name, file] = words else { return None };
    let bytes = match *name {
        "stim" => Some(samples::stimulus()),
        name => shapes::named(name),
    };
    let Some(bytes) = bytes else {
        eprintln!("no sheet is named {name}; `second shapes` lists the names");
        return Some(ExitCode::from(2));
    };
    Some(files::write(file, &bytes))
}

/// The printout and next sheet of two files.
fn of_files(sheet: &str, stimulus: &str) -> Result<(String, Vec<u8>), Answer> {
    let sheet = files::read(sheet, 1)?;
    let stimulus = files::read(stimulus, 2)?;
    printout(&sheet, &stimulus)
}

fn list(words: &[&str]) -> Option<ExitCode> {
    let (sheet, stimulus, file) = match words {
        [sheet, stimulus] => (sheet, stimulus, None),
        [sheet, stimulus, file] => (sheet, stimulus, Some(file)),
        _ => return None,
    };
    Some(match of_files(sheet, stimulus) {
        Ok((text, next)) => {
            print!("{text}");
            file.map_or(ExitCode::SUCCESS, |file| files::write(file, &next))
        }
        Err(answer) => files::refuse(answer, ExitCode::SUCCESS),
    })
}

fn write_next(words: &[&str]) -> Option<ExitCode> {
    let [sheet, stimulus, file] = words else { return None };
    Some(match of_files(sheet, stimulus) {
        Ok((_, next)) => files::write(file, &next),
        Err(answer) => files::refuse(answer, ExitCode::FAILURE),
    })
}

/// The sheet of a text in a file.
fn translated(text: &str) -> Result<Vec<u8>, Answer> {
    let text = files::read(text, 1)?;
    let Outcome { answer, mut written } = translate(&text, MAX_RECORDS * RECORD_BYTES);
    if answer.code != ACCEPTED {
        return Err(answer);
    }
    written.truncate(answer.place as usize);
    Ok(written)
}

fn write_translated(words: &[&str]) -> Option<ExitCode> {
    let [text, file] = words else { return None };
    Some(match translated(text) {
        Ok(sheet) => files::write(file, &sheet),
        Err(answer) => files::refuse(answer, ExitCode::FAILURE),
    })
}
