//! Times a replay of an agreeing record beside the run that made it, on the
//! sheets and stimuli that the run is timed on.

use std::hint::black_box;
use std::process::ExitCode;
use std::time::{Duration, Instant};

use super::archive::{replay, Replayed};
use super::replay::{replay as second_replay, Call};
use crate::answers::Answer;
use crate::calls::runs::archive::run as run_of_archive;
use crate::calls::runs::bench::SHEETS;
use crate::calls::runs::cases::named;
use crate::calls::runs::case::Case;
use crate::frame::timing::{conclude, timed, Timed};
use crate::random::Random;
use crate::records::RECORD_BYTES;

/// How long the two calls are timed on one sheet, and how often at least.
const TIME: Duration = Duration::from_millis(3000);
const LEAST: usize = 5;

/// The archive's run and its replay of what the run put out, in turn; and
/// whether both replays agree with the run, and leave its next sheet.
fn time(case: &Case, cycles: usize) -> ([Timed; 2], bool) {
    let Case { sheet, stimulus, output_length, next_length, .. } = case;
    let (mut recorded, mut next) = (vec![0; *output_length], vec![0; *next_length]);
    let done = Answer::accepted(cycles as u32).packed();
    let mut equal = run_of_archive(sheet, stimulus, &mut recorded, &mut next) == done;
    let agrees = Replayed { result: 0, differs: 0, cycle: cycles as u64, leaf: 0 };
    let (mut outputs, mut ran) = (recorded.clone(), next.clone());
    let mut replayed = vec![0; *next_length];
    let mut times = [(); 2].map(|_| Vec::new());
    // Which of the two goes first changes from turn to turn.
    let mut random = Random::new(4);
    let begun = Instant::now();
    while times[0].len() < LEAST || begun.elapsed() < TIME {
        let first = random.below(2);
        for call in [first, 1 - first] {
            let (taken, right) = match call {
                0 => timed(|| {
                    run_of_archive(black_box(sheet), stimulus, &mut outputs, &mut ran) == done
                }),
                _ => timed(|| {
                    replay(black_box(sheet), stimulus, &recorded, &mut replayed) == agrees
                }),
            };
            times[call].push(taken);
            equal &= right;
        }
        equal &= replayed == next;
    }
    let call = Call { sheet, stimulus, recorded: &recorded, next_length: *next_length };
    let second = second_replay(&call);
    equal &= second.numbers() == [0, cycles as u64, 0] && second.next == Some(next);
    (times.map(Timed::of), equal)
}

pub fn command(words: &[&str]) -> Option<ExitCode> {
    words.is_empty().then(run)
}

fn run() -> ExitCode {
    println!("microseconds for one call of the archive: medians, and the shortest");
    let heads = ["records", "cycles", "run", "replay", "ratio", "shortest", "shortest", "ratio"];
    println!("{:<24}{}", "sheet", heads.map(|head| format!("{head:>11}")).concat());
    let (mut differences, mut greatest) = (0, 0.0_f64);
    for (name, cycles, _) in SHEETS {
        let Some(case) = named(name, cycles) else { continue };
        let ([run, replay], equal) = time(&case, cycles);
        let records = case.sheet.len() / RECORD_BYTES;
        let of_two = |run: f64, replay: f64| {
            format!("{run:>11.0}{replay:>11.0}{:>11.2}", replay / run)
        };
        let medians = of_two(run.median, replay.median);
        let shortest = of_two(run.shortest, replay.shortest);
        println!("{name:<24}{records:>11}{cycles:>11}{medians}{shortest}");
        differences += usize::from(!equal);
        greatest = greatest.max(replay.median / run.median);
    }
    println!("greatest ratio of medians {greatest:.2}");
    conclude(differences)
}
