//! Times the count beside a plain loop: the second simulator evaluates every
//! input of a circuit that was read before.

use std::hint::black_box;
use std::process::ExitCode;
use std::time::{Duration, Instant};

use super::archive;
use super::circuits::{rows, Row};
use super::counting::{counters, Counters, NONE, RULES};
use crate::accepted::Circuit;
use crate::answers::Answer;
use crate::frame::timing::{median, timed};
use crate::records::{A, RECORD_BYTES};

/// How long both are timed on one circuit, and how often at least.
const TIME: Duration = Duration::from_millis(1500);
const LEAST: usize = 5;

/// The counters of a row by hand.
fn by_hand(row: &Row, circuit: &Circuit) -> Counters {
    let constructors = usize::from(circuit.records[1][A]);
    let mut counters = NONE;
    counters[1..=constructors].fill(row.others);
    counters[1] = row.first;
    counters
}

/// The archive's count and the plain loop, in turn: microseconds for each, and
/// whether both gave the counters worked out by hand.
fn time(row: &Row, circuit: &Circuit) -> ([f64; 2], bool) {
    let expected = by_hand(row, circuit);
    let (mut archive, mut plain) = (Vec::new(), Vec::new());
    let mut equal = true;
    let begun = Instant::now();
    while archive.len() < LEAST || begun.elapsed() < TIME {
        let (took, counted) = timed(|| archive::count(black_box(&row.sheet), 0));
        archive.push(took);
        equal &= counted.result == Answer::accepted(0).packed() && counted.counters == expected;
        let (took, counted) = timed(|| counters(&RULES, black_box(circuit), 0));
        plain.push(took);
        equal &= counted == expected;
    }
    ([median(archive), median(plain)], equal)
}

pub fn command(words: &[&str]) -> Option<ExitCode> {
    words.is_empty().then(run)
}

/// Times every row; fails where one gives other counters, or is over its limit.
fn run() -> ExitCode {
    println!("microseconds for one count: the archive, a plain loop; their ratio and its limit");
    let (mut differences, mut over) = (0, 0);
    for row in rows() {
        let Ok(circuit) = Circuit::read(&row.sheet) else {
            println!("{}: refused", row.name);
            differences += 1;
            continue;
        };
        let ([archive, plain], equal) = time(&row, &circuit);
        let ratio = archive / plain;
        let (name, records) = (row.name, row.sheet.len() / RECORD_BYTES);
        let limit = row.limit.map_or("none".to_string(), |limit| limit.to_string());
        println!("{name:<24}{records:>6}{archive:>12.1}{plain:>12.1}{ratio:>10.5}{limit:>8}");
        differences += usize::from(!equal);
        over += usize::from(row.limit.is_some_and(|limit| ratio > limit));
    }
    println!("{differences} differences, {over} over the limit");
    match (differences, over) {
        (0, 0) => ExitCode::SUCCESS,
        _ => ExitCode::FAILURE,
    }
}
