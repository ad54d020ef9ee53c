//! The comparison of the translations.

use super::case::Texts;
use super::jobs::{self, Job};
use super::mistakes::{TextMistake, MISTAKES};
use super::tally;
use crate::frame::comparison::{Comparer, Comparison, Ended};
use crate::frame::tally::{Quota, Tally};
use crate::random::Random;
use crate::text::generate::faults::categories;

impl Comparison for Texts {
    type Mistake = TextMistake;
    type Job = Job;

    const COMMAND: &'static str = "texts";
    const CALLS: &'static [&'static str] = &["sheet_translate", "sheet_run"];
    const WHAT: &'static str = "texts";
    const CASES: &'static str = "--texts";
    const LEAST: u64 = 200_000;
    const ROOMS: &'static [usize] = &[1 << 18; 2];
    const MISTAKES: &'static [(&'static str, TextMistake)] = &MISTAKES;

    fn new(_: &[&str]) -> Result<Self, String> {
        Ok(Texts { categories: categories() })
    }

    fn jobs(&self) -> Vec<Job> {
        jobs::in_order()
    }

    fn more(&self, cases: u64) -> Option<Job> {
        Some(Job::Circuits(cases))
    }

    fn work(&self, job: &Job, to: &mut Comparer<Self>, random: &mut Random) -> Ended {
        job.run(to, &self.categories, random)
    }

    fn quotas(&self) -> Vec<Quota> {
        tally::quotas(&self.categories)
    }

    fn complete(&self, tally: &mut Tally) {
        tally::complete(tally, &self.categories);
    }
}
