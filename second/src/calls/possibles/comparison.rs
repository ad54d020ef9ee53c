//! The comparison of counts of what remains possible.

use super::compare::Possibles;
use super::jobs::{self, Job};
use super::mistakes::{PossibleMistake, MISTAKES};
use super::tally;
use crate::faults::categories;
use crate::frame::comparison::{Comparer, Comparison, Ended};
use crate::frame::tally::Quota;
use crate::random::Random;

impl Comparison for Possibles {
    type Mistake = PossibleMistake;
    type Job = Job;

    const COMMAND: &'static str = "possible";
    const CALLS: &'static [&'static str] = &["sheet_possible", "sheet_preview"];
    const WHAT: &'static str = "possibles";
    const CASES: &'static str = "--possibles";
    const LEAST: u64 = tally::ACCEPTED_POSSIBLES;
    const ROOMS: &'static [usize] = &[1 << 20, 1 << 18, 1 << 18];
    const MISTAKES: &'static [(&'static str, PossibleMistake)] = &MISTAKES;

    fn new(_: &[&str]) -> Result<Self, String> {
        Ok(Possibles { categories: categories() })
    }

    fn jobs(&self) -> Vec<Job> {
        jobs::in_order()
    }

    fn more(&self, cases: u64) -> Option<Job> {
        Some(Job::Accepted(cases))
    }

    fn work(&self, job: &Job, to: &mut Comparer<Self>, random: &mut Random) -> Ended {
        job.run(to, random)
    }

    fn quotas(&self) -> Vec<Quota> {
        tally::quotas()
    }
}
