//! Times the preview of one cycle beside the run of that cycle.

use std::hint::black_box;
use std::process::ExitCode;
use std::time::{Duration, Instant};

use super::archive::preview as preview_of_archive;
use super::kind::Previews;
use super::preview::{preview, Call};
use crate::answers::Answer;
use crate::calls::runs::archive::run as run_of_archive;
use crate::frame::timing::{conclude, median};
use crate::one_cycle::cases::Ground;
use crate::one_cycle::kind::Case;
use crate::random::Random;
use crate::records::RECORD_BYTES;
use crate::shapes;

/// How long the calls are timed on one sheet.
const TIME: Duration = Duration::from_millis(500);

const SHEETS: [&str; 6] = [
    "T",
    "T-64-times",
    "random-4000",
    "slow-feedback-64",
    "three-slow-feedbacks-64",
    "shared-pattern",
];

/// The archive's preview, its run of the same cycle and the second preview, in
/// turn; and whether they gave the same.
fn time(case: &Case) -> ([f64; 3], bool) {
    let Case { sheet, stimulus, slice_length, .. } = case;
    let call = Call { sheet, stimulus, output_length: *slice_length };
    let (mut shown, mut outputs) = (vec![0; *slice_length], vec![0; *slice_length]);
    let mut next = vec![0; sheet.len()];
    let mut times = [(); 3].map(|_| Vec::new());
    let mut equal = true;
    let [accepted, one_cycle] = [0, 1].map(|place| Answer::accepted(place).packed());
    let begun = Instant::now();
    while times[0].is_empty() || begun.elapsed() < TIME {
        let start = Instant::now();
        equal &= preview_of_archive(black_box(sheet), stimulus, &mut shown) == accepted;
        times[0].push(start.elapsed());
        let start = Instant::now();
        equal &= run_of_archive(black_box(sheet), stimulus, &mut outputs, &mut next) == one_cycle;
        times[1].push(start.elapsed());
        let start = Instant::now();
        let second = preview(black_box(&call));
        times[2].push(start.elapsed());
        equal &= outputs == shown && second.outputs.as_ref() == Some(&shown);
    }
    (times.map(median), equal)
}

pub fn command(words: &[&str]) -> Option<ExitCode> {
    words.is_empty().then(run)
}

fn run() -> ExitCode {
    println!("microseconds for one cycle: the archive's preview, its run, the second preview");
    let mut differences = 0;
    for name in SHEETS {
        let Some(sheet) = shapes::named(name) else { continue };
        let Some(ground) = Ground::of::<Previews>(&sheet) else { continue };
        let case = ground.good(name, sheet, &mut Random::new(4));
        let ([archive, run, second], equal) = time(&case);
        let records = case.sheet.len() / RECORD_BYTES;
        println!("{name:<24}{records:>6}{archive:>12.1}{run:>12.1}{second:>12.1}");
        differences += usize::from(!equal);
    }
    conclude(differences)
}
