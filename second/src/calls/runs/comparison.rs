//! The comparison of the runs.

use super::case::{Runs, ROOMS};
use super::jobs::{self, Job};
use super::mistakes::{RunMistake, MISTAKES};
use super::tally;
use crate::faults::categories;
use crate::frame::comparison::{Comparer, Comparison, Ended};
use crate::frame::tally::Quota;
use crate::random::Random;

impl Comparison for Runs {
    type Mistake = RunMistake;
    type Job = Job;

    const COMMAND: &'static str = "run";
    const CALLS: &'static [&'static str] = &["sheet_run"];
    const WHAT: &'static str = "runs";
    const CASES: &'static str = "--runs";
    const LEAST: u64 = 100_000;
    const ROOMS: &'static [usize] = &ROOMS;
    const MISTAKES: &'static [(&'static str, RunMistake)] = &MISTAKES;

    fn new(_: &[&str]) -> Result<Self, String> {
        Ok(Runs { categories: categories() })
    }

    fn jobs(&self) -> Vec<Job> {
        jobs::in_order()
    }

    fn more(&self, cases: u64) -> Option<Job> {
        Some(Job::Accepted(cases))
    }

    fn work(&self, job: &Job, to: &mut Comparer<Self>, random: &mut Random) -> Ended {
        job.run(to, &self.categories, random)
    }

    fn quotas(&self) -> Vec<Quota> {
        tally::quotas()
    }
}
