//! The comparison of presses.

use super::compare::Presses;
use super::jobs::{self, Job};
use super::mistakes::{PressMistake, MISTAKES};
use super::tally;
use crate::faults::categories;
use crate::frame::comparison::{Comparer, Comparison, Ended};
use crate::frame::tally::Quota;
use crate::random::Random;

impl Comparison for Presses {
    type Mistake = PressMistake;
    type Job = Job;

    const COMMAND: &'static str = "press";
    const CALLS: &'static [&'static str] = &["sheet_press", "sheet_run"];
    const WHAT: &'static str = "presses";
    const CASES: &'static str = "--presses";
    const LEAST: u64 = tally::ACCEPTED_PRESSES;
    const ROOMS: &'static [usize] = &[1 << 20, 1 << 18, 8, 24];
    const MISTAKES: &'static [(&'static str, PressMistake)] = &MISTAKES;

    fn new(_: &[&str]) -> Result<Self, String> {
        Ok(Presses { categories: categories() })
    }

    fn jobs(&self) -> Vec<Job> {
        jobs::in_order()
    }

    fn more(&self, cases: u64) -> Option<Job> {
        Some(Job::Accepted(cases))
    }

    fn work(&self, job: &Job, to: &mut Comparer<Self>, random: &mut Random) -> Ended {
        job.run(to, random)
    }

    fn quotas(&self) -> Vec<Quota> {
        tally::quotas()
    }
}
