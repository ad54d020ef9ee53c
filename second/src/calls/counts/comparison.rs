//! The comparison of counts.

use super::compare::Counts;
use super::counting::Counters;
use super::jobs::{self, Job};
use super::mistakes::{CountMistake, MISTAKES};
use super::tally;
use crate::faults::categories;
use crate::frame::comparison::{Comparer, Comparison, Ended};
use crate::frame::tally::Quota;
use crate::random::Random;

impl Comparison for Counts {
    type Mistake = CountMistake;
    type Job = Job;

    const COMMAND: &'static str = "count";
    const CALLS: &'static [&'static str] = &["sheet_count", "sheet_run"];
    const WHAT: &'static str = "counts";
    const CASES: &'static str = "--counts";
    const LEAST: u64 = tally::ACCEPTED_COUNTS;
    const ROOMS: &'static [usize] = &[1 << 20, 8, size_of::<Counters>()];
    const MISTAKES: &'static [(&'static str, CountMistake)] = &MISTAKES;

    fn new(_: &[&str]) -> Result<Self, String> {
        Ok(Counts { categories: categories() })
    }

    fn jobs(&self) -> Vec<Job> {
        jobs::in_order()
    }

    fn more(&self, cases: u64) -> Option<Job> {
        Some(Job::Accepted(cases))
    }

    fn work(&self, job: &Job, to: &mut Comparer<Self>, random: &mut Random) -> Ended {
        job.run(to, random)
    }

    fn quotas(&self) -> Vec<Quota> {
        tally::quotas()
    }
}
