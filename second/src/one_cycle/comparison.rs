//! The comparison of a kind of call that takes one cycle.

use std::marker::PhantomData;

use super::compare::OneCycle;
use super::jobs::{self, Job};
use super::kind::Kind;
use super::tally;
use crate::faults::categories;
use crate::frame::comparison::{Comparer, Comparison, Ended};
use crate::frame::tally::Quota;
use crate::random::Random;

impl<K: Kind> Comparison for OneCycle<K> {
    type Mistake = K::Mistake;
    type Job = Job;

    const COMMAND: &'static str = K::COMMAND;
    const CALLS: &'static [&'static str] = K::CALLS;
    const WHAT: &'static str = K::WHAT;
    const CASES: &'static str = K::CASES;
    const LEAST: u64 = K::LEAST;
    const ROOMS: &'static [usize] = &[1 << 20, 1 << 18, 1 << 20];
    const MISTAKES: &'static [(&'static str, K::Mistake)] = K::MISTAKES;

    fn new(_: &[&str]) -> Result<Self, String> {
        Ok(OneCycle { categories: categories(), kind: PhantomData })
    }

    fn jobs(&self) -> Vec<Job> {
        jobs::in_order(K::LEAST)
    }

    fn more(&self, cases: u64) -> Option<Job> {
        Some(Job::Accepted(cases))
    }

    fn work(&self, job: &Job, to: &mut Comparer<Self>, random: &mut Random) -> Ended {
        job.run(to, &self.categories, random)
    }

    fn quotas(&self) -> Vec<Quota> {
        tally::quotas::<K>()
    }
}
