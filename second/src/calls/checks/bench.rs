//! Times both checks on sheet T and on sheets of 4,096 records.

use std::hint::black_box;
use std::process::ExitCode;
use std::time::{Duration, Instant};

use super::archive;
use crate::frame::timing::{conclude, timed, Timed};
use crate::generate::circuits::circuit_of_records;
use crate::layout::sheet;
use crate::random::Random;
use crate::samples;
use crate::shapes;
use crate::verdict::check;

/// How long the two checks are timed on one sheet.
const TIME: Duration = Duration::from_millis(120);

/// Calls both checks in turn on one sheet.
fn time(sheet: &[u8]) -> [Timed; 2] {
    let (mut archive, mut second) = (Vec::new(), Vec::new());
    let start = Instant::now();
    while archive.len() < 7 || start.elapsed() < TIME {
        archive.push(timed(|| black_box(archive::check(black_box(sheet)))).0);
        second.push(timed(|| black_box(check(black_box(sheet)).packed())).0);
    }
    [Timed::of(archive), Timed::of(second)]
}

/// The sheets that are timed.
fn sheets() -> Vec<(String, Vec<u8>)> {
    let mut sheets = vec![("T".to_string(), samples::t())];
    sheets.extend(shapes::LARGE.iter().map(|(name, make)| (name.to_string(), make())));
    for seed in 1..=6 {
        let mut random = Random::new(seed);
        let draft = circuit_of_records(4096, &mut random);
        sheets.push((format!("random-{seed}"), sheet(&draft, &mut random)));
    }
    sheets
}

pub fn command(words: &[&str]) -> Option<ExitCode> {
    words.is_empty().then(run)
}

fn run() -> ExitCode {
    println!(
        "microseconds for one call on T's 17 records and on 4,096: shortest, median, longest; \
         ratio of medians"
    );
    println!("{:<22}{:>8}{:>26}{:>26}{:>8}", "sheet", "verdict", "archive", "second", "ratio");
    let mut worst = [(0.0, String::new()), (0.0, String::new())];
    let mut differences = 0;
    for (name, sheet) in sheets() {
        let both = time(&sheet);
        let verdict = check(&sheet);
        differences += usize::from(archive::check(&sheet) != verdict.packed());
        let verdict = format!("{}@{}", verdict.code, verdict.place);
        let ratio = both[0].median / both[1].median;
        let [archive, second] = both
            .each_ref()
            .map(|timed| format!("{:.1} {:.1} {:.1}", timed.shortest, timed.median, timed.longest));
        println!("{name:<22}{verdict:>8}{archive:>26}{second:>26}{ratio:>8.2}");
        for (worst, timed) in worst.iter_mut().zip(&both) {
            if timed.median > worst.0 {
                *worst = (timed.median, name.clone());
            }
        }
    }
    for (name, (median, sheet)) in ["archive", "second"].iter().zip(&worst) {
        println!("worst median, {name}: {median:.1} on {sheet}");
    }
    conclude(differences)
}
