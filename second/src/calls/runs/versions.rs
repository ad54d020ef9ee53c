//! Times two versions of the archive by turns, in one process and on the same
//! slices. Both are loaded in the same way: one before a change, and the one
//! that this program was built with.

use std::ffi::c_void;
use std::io;
use std::mem::transmute;
use std::path::{Path, PathBuf};
use std::time::Duration;

use super::case::Case;
use super::cases::{defined, named};
use crate::frame::shared_object::SharedObject;
use crate::frame::timing::{heads, line, median, processor_time};
use crate::records::RECORD_BYTES;

/// How many samples are taken of each version; their median counts.
const TURNS: usize = 21;

/// A sample of short calls takes about so long, and is the mean of them.
const SAMPLE: Duration = Duration::from_millis(4);

/// The sheets that are timed on inputs with undefined leaves too.
const UNDEFINED: [&str; 5] = ["T", "T-64-times", "counter", "counter-64-times", "random-4000"];

/// The sheets of which one cycle is timed, by each call.
const ONE_CYCLE: [&str; 5] = ["T", "T-64-times", "counter", "counter-64-times", "longest"];

type Run = unsafe extern "C" fn(
    *const u8,
    usize,
    *const u8,
    usize,
    *mut u8,
    usize,
    *mut u8,
    usize,
) -> u64;

type Preview = unsafe extern "C" fn(*const u8, usize, *const u8, usize, *mut u8, usize) -> u64;

type Fired = unsafe extern "C" fn(*const u8, usize, *const u8, usize, *mut u16, usize) -> u64;

/// The timed calls of one version.
struct Version {
    run: Run,
    preview: Preview,
    fired: Fired,
}

impl Version {
    /// The version in a folder, by way of a shared object of that name.
    fn of(folder: &Path, object: &Path) -> io::Result<Version> {
        let object = SharedObject::of(&folder.join("libsheets.a"), object)?;
        let [run, preview, fired] = [c"sheet_run", c"sheet_preview", c"sheet_fired"];
        let [run, preview, fired] =
            [object.function(run)?, object.function(preview)?, object.function(fired)?];
        // Each is the function that include/sheet.h declares under its name.
        Ok(unsafe {
            Version {
                run: transmute::<*mut c_void, Run>(run),
                preview: transmute::<*mut c_void, Preview>(preview),
                fired: transmute::<*mut c_void, Fired>(fired),
            }
        })
    }
}

/// A call that is timed.
#[derive(Clone, Copy)]
enum Timed {
    Run,
    Preview,
    Fired,
}

impl Timed {
    fn name(self) -> &'static str {
        match self {
            Timed::Run => "run",
            Timed::Preview => "preview",
            Timed::Fired => "fired",
        }
    }
}

/// What both versions are lent: a case, and what they fill.
struct Lent {
    call: Timed,
    case: Case,
    /// The outputs, or the words of the call for fired alternatives.
    outputs: Vec<u8>,
    words: Vec<u16>,
    next: Vec<u8>,
}

impl Lent {
    fn of(call: Timed, case: Case) -> Lent {
        let (outputs, next) = (vec![0; case.output_length], vec![0; case.next_length]);
        let words = vec![0; case.sheet.len() / RECORD_BYTES];
        Lent { call, case, outputs, words, next }
    }

    /// One call of a version.
    fn call(&mut self, version: &Version) -> u64 {
        let (sheet, stimulus) = (&self.case.sheet, &self.case.stimulus);
        let (outputs, words, next) = (&mut self.outputs, &mut self.words, &mut self.next);
        let (at, long) = (sheet.as_ptr(), sheet.len());
        let (from, many) = (stimulus.as_ptr(), stimulus.len());
        // The slices are valid for their lengths and do not overlap.
        unsafe {
            match self.call {
                Timed::Run => {
                    let (to, next_to) = (outputs.as_mut_ptr(), next.as_mut_ptr());
                    (version.run)(at, long, from, many, to, outputs.len(), next_to, next.len())
                }
                Timed::Preview => {
                    (version.preview)(at, long, from, many, outputs.as_mut_ptr(), outputs.len())
                }
                Timed::Fired => {
                    (version.fired)(at, long, from, many, words.as_mut_ptr(), words.len())
                }
            }
        }
    }

    /// The time of one call, from so many of them.
    fn sample(&mut self, version: &Version, calls: u32) -> Duration {
        let start = processor_time();
        for _ in 0..calls {
            self.call(version);
        }
        (processor_time() - start) / calls
    }

    /// What a version answers and leaves in slices that held zeros.
    fn given(&mut self, version: &Version) -> (u64, Vec<u8>, Vec<u16>, Vec<u8>) {
        self.outputs.fill(0);
        self.words.fill(0);
        self.next.fill(0);
        let answer = self.call(version);
        (answer, self.outputs.clone(), self.words.clone(), self.next.clone())
    }
}

/// The medians of both versions in microseconds, by turns. Which of them goes
/// first changes from turn to turn.
fn medians(lent: &mut Lent, [before, now]: [&Version; 2]) -> [f64; 2] {
    let once = lent.sample(before, 1).max(Duration::from_nanos(100));
    let calls = (SAMPLE.as_nanos() / once.as_nanos()).max(1) as u32;
    let mut samples = [Vec::new(), Vec::new()];
    for turn in 0..TURNS {
        for which in [turn % 2, 1 - turn % 2] {
            samples[which].push(lent.sample([before, now][which], calls));
        }
    }
    samples.map(median)
}

/// A row: a call, how its input is called, and a case of so many cycles.
type Row = (Timed, &'static str, usize, Case);

/// Every row: the runs on defined inputs, some on undefined ones, and one cycle
/// by each call.
fn rows(runs: &[(&'static str, usize)]) -> Vec<Row> {
    let row = |call, name, cycles| Some((call, "defined", cycles, defined(name, cycles)?));
    let mut rows: Vec<Option<Row>> =
        runs.iter().map(|&(name, cycles)| row(Timed::Run, name, cycles)).collect();
    for &(name, cycles) in runs.iter().filter(|(name, _)| UNDEFINED.contains(name)) {
        rows.push(named(name, cycles).map(|case| (Timed::Run, "undefined", cycles, case)));
    }
    for call in [Timed::Run, Timed::Preview, Timed::Fired] {
        rows.extend(ONE_CYCLE.map(|name| row(call, name, 1)));
    }
    rows.into_iter().flatten().collect()
}

/// The folder of the archive that this program was built with.
fn linked() -> io::Result<PathBuf> {
    let folder = option_env!("SHEET_LIB_DIR").map(PathBuf::from);
    folder.ok_or_else(|| io::Error::other("built without SHEET_LIB_DIR"))
}

/// Times the archive of a folder and the one in use on runs of named sheets,
/// and on one cycle of each call that takes one; how many calls differ.
pub fn compare(folder: &Path, runs: &[(&'static str, usize)]) -> io::Result<usize> {
    let this = std::env::current_exe()?;
    let before = Version::of(folder, &this.with_file_name("libsheets-before.so"))?;
    let now = Version::of(&linked()?, &this.with_file_name("libsheets-now.so"))?;
    let load = std::fs::read_to_string("/proc/loadavg")?;
    println!("load of the machine: {}", load.split(' ').next().unwrap_or_default());
    println!("microseconds of processor time for one call, medians of {TURNS} by turns");
    heads("sheet, call, input, records, cycles, before, now, ratio");
    let mut differences = 0;
    for (call, input, cycles, case) in rows(runs) {
        let mut lent = Lent::of(call, case);
        differences += usize::from(lent.given(&before) != lent.given(&now));
        let [old, new] = medians(&mut lent, [&before, &now]);
        let records = lent.case.sheet.len() / RECORD_BYTES;
        let kind = [call.name(), input].map(str::to_string);
        let numbers = [records, cycles].map(|number| number.to_string());
        let times = [format!("{old:.2}"), format!("{new:.2}"), format!("{:.3}", new / old)];
        line(&lent.case.source, &[&kind[..], &numbers[..], &times[..]].concat());
    }
    Ok(differences)
}
