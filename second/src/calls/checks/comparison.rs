//! The comparison of the checks.

use super::case::Checks;
use super::jobs::{self, Job};
use super::mistakes::{CheckMistake, MISTAKES};
use super::tally;
use crate::faults::categories;
use crate::frame::comparison::{Comparer, Comparison, Ended};
use crate::frame::lender::Lender;
use crate::frame::tally::{Quota, Tally};
use crate::random::Random;

impl Comparison for Checks {
    type Mistake = CheckMistake;
    type Job = Job;

    const COMMAND: &'static str = "check";
    const CALLS: &'static [&'static str] = &["sheet_check"];
    const WHAT: &'static str = "sheets";
    const CASES: &'static str = "--sheets";
    const LEAST: u64 = 200_000;
    const ROOMS: &'static [usize] = &[1 << 20];
    const MISTAKES: &'static [(&'static str, CheckMistake)] = &MISTAKES;

    fn new(_: &[&str]) -> Result<Self, String> {
        Ok(Checks { categories: categories() })
    }

    fn jobs(&self) -> Vec<Job> {
        jobs::in_order()
    }

    fn more(&self, cases: u64) -> Option<Job> {
        Some(Job::Extra(cases))
    }

    fn work(&self, job: &Job, to: &mut Comparer<Self>, random: &mut Random) -> Ended {
        job.run(to, &self.categories, random)
    }

    fn quotas(&self) -> Vec<Quota> {
        tally::quotas(&self.categories)
    }

    fn complete(&self, tally: &mut Tally) {
        tally::complete(tally);
    }

    /// No slice is filled.
    fn lender(&self, _: &mut Random) -> Lender {
        Lender::new(Self::ROOMS, Random::new(0))
    }
}
