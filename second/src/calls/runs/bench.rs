//! Times both runs, an older archive beside this one, and the program from its
//! start to its end.

use std::hint::black_box;
use std::io;
use std::path::{Path, PathBuf};
use std::process::{Command, ExitCode, Stdio};
use std::time::{Duration, Instant};

use super::archive::run as run_of_archive;
use super::case::Case;
use super::cases::named;
use super::versions;
use crate::calls::checks::archive::check as check_of_archive;
use crate::frame::timing::{conclude, heads, line, median, timed};
use crate::records::RECORD_BYTES;
use crate::simulator::{self, Call};
use crate::stimulus::LONGEST_STIMULUS;

/// How long two calls or two programs are timed on one sheet.
const TIME: Duration = Duration::from_millis(1500);

/// The sheets, the cycles they are timed on, and whether the program is timed
/// on them too.
pub const SHEETS: [(&str, usize, bool); 9] = [
    ("T", LONGEST_STIMULUS, true),
    ("T-64-times", LONGEST_STIMULUS / 64, true),
    ("counter", LONGEST_STIMULUS, false),
    ("counter-64-times", LONGEST_STIMULUS / 64, false),
    ("random-4000", 200, true),
    ("slow-feedback-64", 1000, false),
    ("three-slow-feedbacks-64", 1, false),
    ("shared-pattern", 10, false),
    ("shared-nested-pattern", 10, false),
];

/// Calls both runs and the archive's check in turn: microseconds for a call of
/// each, and whether the runs gave the same.
fn time(case: &Case) -> ([f64; 3], bool) {
    let Case { sheet, stimulus, output_length, next_length, .. } = case;
    let call = Call { sheet, stimulus, output_length: *output_length, next_length: *next_length };
    let (mut outputs, mut next) = (vec![0; *output_length], vec![0; *next_length]);
    let (mut archive, mut check, mut second) = (Vec::new(), Vec::new(), Vec::new());
    let mut equal = true;
    let begun = Instant::now();
    while archive.is_empty() || begun.elapsed() < TIME {
        let (ran, answer) = timed(|| {
            run_of_archive(black_box(sheet), black_box(stimulus), &mut outputs, &mut next)
        });
        archive.push(ran);
        check.push(timed(|| black_box(check_of_archive(black_box(sheet)))).0);
        let (ran, outcome) = timed(|| simulator::run(black_box(&call)));
        second.push(ran);
        equal &= answer == outcome.answer.packed()
            && outcome.outputs.as_ref() == Some(&outputs)
            && outcome.next.as_ref() == Some(&next);
    }
    ([median(archive), median(check), median(second)], equal)
}

/// The calls; how many differ.
fn calls() -> usize {
    println!(
        "microseconds for one call; check: the part of the archive's run that its check takes"
    );
    heads("sheet, records, cycles, archive, check, second, ratio");
    let mut differences = 0;
    for (name, cycles, _) in SHEETS {
        let Some(case) = named(name, cycles) else { continue };
        let ([archive, check, second], equal) = time(&case);
        let records = case.sheet.len() / RECORD_BYTES;
        let micros = |micros: f64| format!("{micros:.0}");
        let percent = format!("{:.0} %", 100.0 * check / archive);
        let ratio = format!("{:.2}", archive / second);
        let numbers = [records.to_string(), cycles.to_string()];
        let times = [micros(archive), percent, micros(second), ratio];
        line(name, &[&numbers[..], &times[..]].concat());
        differences += usize::from(!equal);
    }
    differences
}

/// Runs a program in a folder and gives its time; what it prints goes nowhere.
fn run_program(path: &Path, words: &[&str], folder: &Path) -> io::Result<Duration> {
    let mut command = Command::new(path);
    command.args(words).current_dir(folder).stdin(Stdio::null()).stdout(Stdio::null());
    let (time, status) = timed(|| command.status());
    match status?.success() {
        true => Ok(time),
        false => Err(io::Error::other("a program failed")),
    }
}

/// The program and this one, which does the same by `listing`: from start to
/// end, with the files read and written.
fn programs(program: &Path, folder: &Path) -> io::Result<()> {
    println!("microseconds from the start of a program to its end");
    heads("sheet, records, cycles, sheetrun, second, ratio");
    let this = std::env::current_exe()?;
    for (name, cycles, _) in SHEETS.iter().filter(|(_, _, programs)| *programs) {
        let Some(case) = named(name, *cycles) else { continue };
        std::fs::write(folder.join("sheet.bin"), &case.sheet)?;
        std::fs::write(folder.join("stim.bin"), &case.stimulus)?;
        let (mut sheetrun, mut second) = (Vec::new(), Vec::new());
        let begun = Instant::now();
        while sheetrun.is_empty() || begun.elapsed() < TIME {
            sheetrun.push(run_program(program, &[], folder)?);
            let words = ["listing", "sheet.bin", "stim.bin", "second.bin"];
            second.push(run_program(&this, &words, folder)?);
        }
        let (sheetrun, second) = (median(sheetrun), median(second));
        let numbers = [case.sheet.len() / RECORD_BYTES, *cycles].map(|n| n.to_string());
        let micros = [sheetrun, second].map(|micros| format!("{micros:.0}"));
        let ratio = format!("{:.2}", sheetrun / second);
        line(name, &[&numbers[..], &micros[..], &[ratio]].concat());
    }
    Ok(())
}

pub fn command(words: &[&str]) -> Option<ExitCode> {
    let (before, rest) = match words {
        ["--before", folder, rest @ ..] => (Some(*folder), rest),
        _ => (None, words),
    };
    match rest {
        [] => Some(run(before, None)),
        [program, folder] => Some(run(before, Some((program, folder)))),
        _ => None,
    }
}

/// Times the calls, beside an older archive if there is one, and a program in a
/// folder if there is one.
fn run(before: Option<&str>, program: Option<(&str, &str)>) -> ExitCode {
    timed_all(before, program).unwrap_or_else(|error| {
        eprintln!("{error}");
        ExitCode::FAILURE
    })
}

fn timed_all(before: Option<&str>, program: Option<(&str, &str)>) -> io::Result<ExitCode> {
    let mut differences = calls();
    if let Some(folder) = before {
        let runs = SHEETS.map(|(name, cycles, _)| (name, cycles));
        differences += versions::compare(Path::new(folder), &runs)?;
    }
    let ended = conclude(differences);
    if let Some((path, folder)) = program {
        std::fs::create_dir_all(folder)?;
        programs(&Path::new(path).canonicalize()?, &PathBuf::from(folder))?;
    }
    Ok(ended)
}
