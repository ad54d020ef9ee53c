//! Times of calls. Other work on the machine lengthens some of them, so the
//! median counts. Tables of times.

use std::process::ExitCode;
use std::time::{Duration, Instant};

/// Microseconds for one call.
pub struct Timed {
    pub shortest: f64,
    pub median: f64,
    pub longest: f64,
}

impl Timed {
    pub fn of(mut calls: Vec<Duration>) -> Timed {
        calls.sort();
        let micros = |k: usize| calls[k].as_nanos() as f64 / 1000.0;
        let last = calls.len() - 1;
        Timed { shortest: micros(0), median: micros(last / 2), longest: micros(last) }
    }
}

/// The median in microseconds.
pub fn median(calls: Vec<Duration>) -> f64 {
    Timed::of(calls).median
}

/// How long a call takes, and what it gives.
pub fn timed<T>(call: impl FnOnce() -> T) -> (Duration, T) {
    let start = Instant::now();
    let given = call();
    (start.elapsed(), given)
}

/// The numbers of Linux for a clock and its time.
const OF_THE_PROCESS: i32 = 2;

#[repr(C)]
struct TimeOfClock {
    seconds: i64,
    nanoseconds: i64,
}

extern "C" {
    fn clock_gettime(clock: i32, time: *mut TimeOfClock) -> i32;
}

/// The time that processors have spent on this program so far.
pub fn processor_time() -> Duration {
    let mut time = TimeOfClock { seconds: 0, nanoseconds: 0 };
    // The time is a place to write to, of the shape that the function asks for.
    unsafe { clock_gettime(OF_THE_PROCESS, &mut time) };
    Duration::new(time.seconds as u64, time.nanoseconds as u32)
}

/// Prints a line of a table.
pub fn line(name: &str, words: &[String]) {
    println!("{name:<24}{}", words.iter().map(|word| format!("{word:>14}")).collect::<String>());
}

/// Prints the heads of a table, which commas part.
pub fn heads(text: &str) {
    let words: Vec<String> = text.split(", ").map(str::to_string).collect();
    line(&words[0], &words[1..]);
}

/// Tells how many of the timed calls differ; the status.
pub fn conclude(differences: usize) -> ExitCode {
    println!("{differences} differences");
    if differences == 0 {
        ExitCode::SUCCESS
    } else {
        ExitCode::FAILURE
    }
}
