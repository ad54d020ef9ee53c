//! What tools/test-desk runs beside the program itself: the map of places on
//! random texts, and damaged files.
//!
//! desk-trials places COUNT     the second layout against the archive's sheets
//! desk-trials changed COUNT    one token changed: which records change?
//! desk-trials warned COUNT     alternatives that can never fire: do they?
//! desk-trials damaged COUNT FOLDER TEXTS    damaged texts and stimuli

mod changed;
mod damaged;
mod places;
mod texts;
#[cfg(call_run)]
mod warned;

use std::process::ExitCode;
use std::thread;

/// More stack than any call needs.
const STACK: usize = 64 << 20;

fn main() -> ExitCode {
    let words: Vec<String> = std::env::args().skip(1).collect();
    let worker = thread::Builder::new().stack_size(STACK).spawn(move || run(&words));
    match worker.map(|worker| worker.join()) {
        Ok(Ok(true)) => ExitCode::SUCCESS,
        _ => ExitCode::FAILURE,
    }
}

fn run(words: &[String]) -> bool {
    let words: Vec<&str> = words.iter().map(String::as_str).collect();
    let count = |text: &str| text.parse().unwrap_or(0);
    match words.as_slice() {
        ["places", number] => places::run(count(number)),
        ["changed", number] => changed::run(count(number)),
        #[cfg(call_run)]
        ["warned", number] => warned::run(count(number)),
        ["damaged", number, folder, texts] => damaged::run(count(number), folder, texts),
        _ => {
            eprintln!(
                "usage: desk-trials places COUNT | changed COUNT | damaged COUNT FOLDER TEXTS"
            );
            false
        }
    }
}
