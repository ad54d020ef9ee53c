//! The comparison of replays.

use super::case::ROOMS;
use super::compare::Replays;
use super::jobs::{self, Job};
use super::mistakes::{ReplayMistake, MISTAKES};
use super::tally;
use crate::faults::categories;
use crate::frame::comparison::{Comparer, Comparison, Ended};
use crate::frame::tally::Quota;
use crate::random::Random;

impl Comparison for Replays {
    type Mistake = ReplayMistake;
    type Job = Job;

    const COMMAND: &'static str = "replay";
    const CALLS: &'static [&'static str] = &["sheet_replay", "sheet_run"];
    const WHAT: &'static str = "replays";
    const CASES: &'static str = "--replays";
    const LEAST: u64 = tally::ACCEPTED_REPLAYS;
    const ROOMS: &'static [usize] = &ROOMS;
    const MISTAKES: &'static [(&'static str, ReplayMistake)] = &MISTAKES;

    fn new(_: &[&str]) -> Result<Self, String> {
        Ok(Replays { categories: categories() })
    }

    fn jobs(&self) -> Vec<Job> {
        jobs::in_order()
    }

    fn more(&self, cases: u64) -> Option<Job> {
        Some(Job::Accepted(cases))
    }

    fn work(&self, job: &Job, to: &mut Comparer<Self>, random: &mut Random) -> Ended {
        job.run(to, random)
    }

    fn quotas(&self) -> Vec<Quota> {
        tally::quotas()
    }
}
