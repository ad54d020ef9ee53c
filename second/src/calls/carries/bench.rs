//! Times both implementations on sheets of 4,096 records with many labels.

use std::hint::black_box;
use std::process::ExitCode;
use std::time::{Duration, Instant};

use super::archive::carry as carry_of_archive;
use super::carry::{carry, Call};
use crate::calls::checks::archive::check as check_of_archive;
use crate::frame::timing::{conclude, median, timed};
use crate::labels::labels;
use crate::shapes;

/// How long two calls are timed on two sheets.
const TIME: Duration = Duration::from_millis(500);

/// The old sheet and the new one.
pub const SHEETS: [(&str, &str); 2] =
    [("labelled-delays", "labelled-delays-again"), ("wide-delays", "wide-delays-again")];

/// Calls both, and the archive's two checks, in turn: microseconds for each,
/// and whether the calls gave the same.
fn time(old: &[u8], new: &[u8]) -> ([f64; 3], bool) {
    let mut next = vec![0; new.len()];
    let (mut archive, mut checks, mut second) = (Vec::new(), Vec::new(), Vec::new());
    let mut equal = true;
    let begun = Instant::now();
    while archive.len() < 7 || begun.elapsed() < TIME {
        let (took, answer) =
            timed(|| carry_of_archive(black_box(old), black_box(new), black_box(&mut next)));
        archive.push(took);
        checks.push(timed(|| black_box((check_of_archive(old), check_of_archive(new)))).0);
        let call = Call { old, new, next_length: new.len() };
        let (took, outcome) = timed(|| carry(black_box(&call)));
        second.push(took);
        equal &= answer == outcome.answer.packed() && outcome.next.as_ref() == Some(&next);
    }
    ([median(archive), median(checks), median(second)], equal)
}

pub fn command(words: &[&str]) -> Option<ExitCode> {
    words.is_empty().then(run)
}

fn run() -> ExitCode {
    println!("microseconds for one call, medians; checks: those of both sheets by the archive");
    println!(
        "{:<20}{:>8}{:>12}{:>12}{:>12}{:>8}",
        "old", "delays", "archive", "checks", "second", "ratio"
    );
    let mut differences = 0;
    for (old_name, new_name) in SHEETS {
        let [old, new] = [old_name, new_name].map(|name| shapes::named(name).unwrap_or_default());
        let ([archive, checks, second], equal) = time(&old, &new);
        let (delays, ratio) = (labels(&old).len(), archive / second);
        println!(
            "{old_name:<20}{delays:>8}{archive:>12.1}{checks:>12.1}{second:>12.1}{ratio:>8.2}"
        );
        differences += usize::from(!equal);
    }
    conclude(differences)
}
