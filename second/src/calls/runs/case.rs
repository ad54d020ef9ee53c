//! One run, and how both simulators are compared on it.

use super::archive;
use super::mistakes::run_by;
use crate::faults::category::Category;
use crate::frame::comparison::{self, Comparer, Given, Halt, Wrote};
use crate::frame::report::Shown;
use crate::rule::IN_FORCE;
use crate::simulator::{Call, Outcome};
use crate::watch::Watch;

/// The comparison of the runs.
pub struct Runs {
    pub categories: Vec<Category>,
}

/// The most bytes of each slice of a run.
pub const ROOMS: [usize; 4] = [1 << 20, 1 << 18, 1 << 23, 1 << 20];

/// A call to compare.
#[derive(Clone)]
pub struct Case {
    pub source: String,
    pub sheet: Vec<u8>,
    pub stimulus: Vec<u8>,
    pub output_length: usize,
    pub next_length: usize,
}

impl Case {
    pub fn call(&self) -> Call<'_> {
        let Case { sheet, stimulus, output_length, next_length, .. } = self;
        Call { sheet, stimulus, output_length: *output_length, next_length: *next_length }
    }
}

impl comparison::Case for Case {
    const FILLED: &'static [&'static str] = &["output", "next"];

    fn source(&self) -> &str {
        &self.source
    }

    fn read(&self) -> Vec<(&'static str, Shown, &[u8])> {
        vec![("sheet", Shown::Sheet, &self.sheet), ("stimulus", Shown::Bytes, &self.stimulus)]
    }

    fn lengths(&self) -> Vec<usize> {
        vec![self.output_length, self.next_length]
    }

    fn archive(slices: &mut [&mut [u8]]) -> u64 {
        let [sheet, stimulus, outputs, next] = slices else { unreachable!("four slices") };
        archive::run(sheet, stimulus, outputs, next)
    }
}

impl Comparer<'_, Runs> {
    /// Compares both runs of a call; hands back the outcome.
    pub fn runs(&mut self, case: &Case) -> Result<Outcome, Halt> {
        self.runs_watched(case, &mut Watch::nothing())
    }

    pub fn runs_watched(&mut self, case: &Case, watch: &mut Watch) -> Result<Outcome, Halt> {
        let outcome = run_by(IN_FORCE, &case.call(), self.mistake, watch);
        let not_least = watch.not_least && self.mistake.is_none();
        let slices = [&outcome.outputs, &outcome.next].map(|slice| Wrote::of(slice.clone()));
        let mut given = Given::new(outcome.answer, slices.into());
        given.wrong =
            not_least.then(|| "the second run's value of a feedback is not the least".to_string());
        self.compare(case, |_| given)?;
        Ok(outcome)
    }
}
