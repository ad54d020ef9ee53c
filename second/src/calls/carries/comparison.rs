//! The comparison of carrying.

use super::case::Carries;
use super::jobs::{self, Job};
use super::mistakes::{CarryMistake, MISTAKES};
use super::tally;
use crate::faults::categories;
use crate::frame::comparison::{Comparer, Comparison, Ended};
use crate::frame::tally::Quota;
use crate::random::Random;

impl Comparison for Carries {
    type Mistake = CarryMistake;
    type Job = Job;

    const COMMAND: &'static str = "carry";
    const CALLS: &'static [&'static str] = &["sheet_carry"];
    const WHAT: &'static str = "carries";
    const CASES: &'static str = "--carries";
    const LEAST: u64 = 100_000;
    const ROOMS: &'static [usize] = &[1 << 20; 3];
    const MISTAKES: &'static [(&'static str, CarryMistake)] = &MISTAKES;

    fn new(_: &[&str]) -> Result<Self, String> {
        Ok(Carries { categories: categories() })
    }

    fn jobs(&self) -> Vec<Job> {
        jobs::in_order()
    }

    fn more(&self, cases: u64) -> Option<Job> {
        Some(Job::Carried(cases))
    }

    fn work(&self, job: &Job, to: &mut Comparer<Self>, random: &mut Random) -> Ended {
        job.run(to, &self.categories, random)
    }

    fn quotas(&self) -> Vec<Quota> {
        tally::quotas()
    }
}
