//! Times the count of what remains possible beside the preview of that cycle.

use std::hint::black_box;
use std::process::ExitCode;
use std::time::Duration;

use super::archive::possible;
use super::cases::ground;
use super::remaining::{remaining, Call};
use super::rows::{rows, Limit, Row};
use crate::answers::Answer;
use crate::calls::previews::archive::preview;
use crate::frame::timing::{median, timed};
use crate::records::RECORD_BYTES;

/// How often both are timed, and how long a time is at least: of short calls so
/// many are timed together.
const TIMES: usize = 21;
const LEAST: Duration = Duration::from_millis(1);

/// Both in turn on one input: the microseconds of a preview and of a count, and
/// whether the count is the second implementation's.
fn time(row: &Row, input: &[u8], leaves: usize) -> ([f64; 2], bool) {
    let sheet = &row.sheet;
    let (mut outputs, mut counts) = (vec![0; leaves], vec![0; leaves]);
    let accepted = Answer::accepted(0).packed();
    let (once, previewed) = timed(|| preview(sheet, input, &mut outputs) == accepted);
    let calls = (LEAST.as_nanos() / once.as_nanos().max(1)).clamp(1, 10_000) as u32;
    let mut times = [(); 2].map(|_| Vec::new());
    let mut answered = true;
    for _ in 0..TIMES {
        let (took, ()) = timed(|| {
            (0..calls).for_each(|_| {
                black_box(preview(black_box(sheet), input, &mut outputs));
            });
        });
        times[0].push(took / calls);
        let (took, ()) = timed(|| {
            for _ in 0..calls {
                answered &= possible(black_box(sheet), input, &mut counts) == accepted;
            }
        });
        times[1].push(took / calls);
    }
    let second = remaining(&Call { sheet, stimulus: input, output_length: leaves });
    (times.map(median), previewed && answered && second.counts.as_ref() == Some(&counts))
}

pub fn command(words: &[&str]) -> Option<ExitCode> {
    words.is_empty().then(run)
}

/// Times every row, on an undefined input and on a defined one; fails where the
/// count differs, or where it is over the row's limit.
fn run() -> ExitCode {
    println!("records; microseconds for one cycle: the archive's preview, its count of what");
    println!("remains possible; their ratio; the limit, of the ratio or of the time");
    let (mut differences, mut over) = (0, 0);
    for row in rows() {
        let Some(ground) = ground(&row.sheet) else {
            println!("{}: refused", row.name);
            differences += 1;
            continue;
        };
        for (name, leaf) in [("undefined", 0), ("defined", 1)] {
            let input = vec![leaf; ground.counts.len()];
            let ([preview, count], equal) = time(&row, &input, ground.items);
            let (ratio, records) = (count / preview, row.sheet.len() / RECORD_BYTES);
            let (limit, beyond) = match row.limit {
                Limit::Previews(most) => (format!("{most} times"), ratio > most),
                Limit::Micros(most) => (format!("{most} us"), count > most),
            };
            let row = format!("{} {name}", row.name);
            println!("{row:<34}{records:>6}{preview:>11.2}{count:>11.2}{ratio:>8.3}  {limit}");
            differences += usize::from(!equal);
            over += usize::from(beyond);
        }
    }
    println!("{differences} differences, {over} over the limit");
    match (differences, over) {
        (0, 0) => ExitCode::SUCCESS,
        _ => ExitCode::FAILURE,
    }
}
