//! The parts of the comparison. The changes of T come first, then shards of the
//! random texts.

use super::case::Texts;
use super::legal::share;
use super::{bad_names, illegal, legal, tally};
use crate::frame::comparison::{self, Ended, SHARDS};
use crate::random::Random;
use crate::text::generate::faults::Category;

type Comparer<'a> = comparison::Comparer<'a, Texts>;

pub enum Job {
    ChangesOfT,
    Circuits(u64),
    AnyTypes,
    Slices,
    Large,
    Positions,
    Damaged,
    BadNames,
    ConstantPairs,
}

/// All jobs, in order.
pub fn in_order() -> Vec<Job> {
    let mut jobs = vec![Job::ChangesOfT];
    for _ in 0..SHARDS {
        jobs.extend([
            Job::Large,
            // Some of their sheets are too deep, or have too many records.
            Job::Circuits(share(tally::RUN) * 5 / 4),
            Job::Positions,
            Job::BadNames,
            Job::ConstantPairs,
            Job::AnyTypes,
            Job::Slices,
            Job::Damaged,
        ]);
    }
    jobs
}

impl Job {
    pub fn run(&self, to: &mut Comparer, categories: &[Category], random: &mut Random) -> Ended {
        match self {
            Job::ChangesOfT => illegal::changes_of_t(to),
            Job::Circuits(texts) => legal::of_circuits(to, *texts, random),
            Job::AnyTypes => legal::of_any_types(to, random),
            Job::Slices => legal::slices(to, random),
            Job::Large => legal::large(to, random),
            Job::Positions => illegal::at_positions(to, random),
            Job::Damaged => illegal::damaged(to, random),
            Job::BadNames => {
                bad_names::of_categories(to, categories, random)?;
                bad_names::two_at_once(to, categories, random)
            }
            Job::ConstantPairs => bad_names::constant_pairs(to, random),
        }
    }
}
