//! Times both translations on texts of 65,535 bytes.

use std::hint::black_box;
use std::process::ExitCode;
use std::time::{Duration, Instant};

use super::archive;
use crate::answers::ACCEPTED;
use crate::frame::report;
use crate::frame::timing::{conclude, timed, Timed};
use crate::records::{MAX_RECORDS, RECORD_BYTES};
use crate::text::long;
use crate::text::translator::{translate, Outcome};

/// How long the two are timed on one text.
const TIME: Duration = Duration::from_millis(300);

/// The slice that both are lent.
const SLICE: usize = MAX_RECORDS * RECORD_BYTES;

/// Whether the archive gave what the second translation gives.
fn equal(packed: u64, slice: &[u8], outcome: &Outcome) -> bool {
    let untouched = vec![0xa5; SLICE];
    let expected = if outcome.answer.code == ACCEPTED { &outcome.written } else { &untouched };
    packed == outcome.answer.packed() && slice == expected
}

/// Calls both in turn: the times of each, and whether they gave the same.
fn time(text: &[u8]) -> ([Timed; 2], u64, bool) {
    let (mut archive, mut second) = (Vec::new(), Vec::new());
    let mut slice = vec![0xa5; SLICE];
    let packed = archive::translate(text, &mut slice);
    let same = equal(packed, &slice, &translate(text, SLICE));
    let start = Instant::now();
    while archive.len() < 7 || start.elapsed() < TIME {
        archive.push(timed(|| archive::translate(black_box(text), black_box(&mut slice))).0);
        second.push(timed(|| black_box(translate(black_box(text), SLICE))).0);
    }
    ([Timed::of(archive), Timed::of(second)], packed, same)
}

pub fn command(words: &[&str]) -> Option<ExitCode> {
    words.is_empty().then(run)
}

fn run() -> ExitCode {
    println!("microseconds for one call on 65,535 bytes; ratio of medians");
    println!(
        "{:<28}{:>16}{:>12}{:>12}{:>12}{:>8}",
        "text", "answer", "archive", "longest", "second", "ratio"
    );
    let (mut longest, mut worst) = ((0.0, ""), (0.0, ""));
    let mut differences = 0;
    for (name, text) in long::all() {
        let ([archive, second], packed, equal) = time(&text);
        let ratio = archive.median / second.median;
        println!(
            "{name:<28}{:>16}{:>12.1}{:>12.1}{:>12.1}{ratio:>8.2}",
            report::answer(packed),
            archive.median,
            archive.longest,
            second.median
        );
        if archive.longest > longest.0 {
            longest = (archive.longest, name);
        }
        if ratio > worst.0 {
            worst = (ratio, name);
        }
        differences += usize::from(!equal);
    }
    println!("longest call of the archive: {:.1} on {}", longest.0, longest.1);
    println!("highest ratio: {:.2} on {}", worst.0, worst.1);
    conclude(differences)
}
