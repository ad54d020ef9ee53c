//! What a comparison says of itself, and what each of its jobs works with.

use std::sync::atomic::{AtomicBool, Ordering};

use super::lender::{Left, Lender};
use super::report::{self, Shown};
use super::tally::{Quota, Tally};
use crate::answers::Answer;
use crate::random::Random;

/// Into how many shards random cases are divided, each of which is a job.
pub const SHARDS: u64 = 8;
/// A shard gives up after so many tries for each case it needs.
pub const TRIES: u64 = 40;

/// Why a job ends early.
pub enum Halt {
    /// It found a difference: the report.
    Difference(String),
    /// Another job did.
    Stopped,
    /// It has compared as many cases as it may.
    Enough,
}

pub type Ended = Result<(), Halt>;

/// A comparison: how its cases are made, computed and compared, what is counted
/// and which quotas there are, and which mistakes are to be found.
pub trait Comparison: Sync + Sized {
    type Mistake: Copy + Sync + 'static;
    type Job: Sync;

    /// The command, and the words that it takes before its options.
    const COMMAND: &'static str;
    const PARAMETERS: &'static [&'static str] = &[];
    /// The functions of the archive that it compares.
    const CALLS: &'static [&'static str];
    /// What its last line counts, and the option for how many.
    const WHAT: &'static str;
    const CASES: &'static str;
    /// How many cases there are to be at least.
    const LEAST: u64;
    /// The most bytes of each slice that is lent.
    const ROOMS: &'static [usize];
    const MISTAKES: &'static [(&'static str, Self::Mistake)];

    /// The comparison of some parameters, or why there is none.
    fn new(parameters: &[&str]) -> Result<Self, String>;

    /// All jobs, in order.
    fn jobs(&self) -> Vec<Self::Job>;

    /// A job of so many further cases, if there can be more than those of the
    /// jobs.
    fn more(&self, _cases: u64) -> Option<Self::Job> {
        None
    }

    fn work(&self, job: &Self::Job, to: &mut Comparer<Self>, random: &mut Random) -> Ended;

    /// All quotas but that of the number of cases.
    fn quotas(&self) -> Vec<Quota>;

    /// Adds the counts that are known at the end alone.
    fn complete(&self, _tally: &mut Tally) {}

    /// What a job lends slices by.
    fn lender(&self, random: &mut Random) -> Lender {
        Lender::new(Self::ROOMS, Random::new(random.draw()))
    }
}

/// A call to compare.
pub trait Case {
    /// The slices that the archive fills, by name.
    const FILLED: &'static [&'static str];
    /// How many bytes an item of these has.
    const ITEM: usize = 1;

    /// Where the case is from.
    fn source(&self) -> &str;

    /// The slices that the archive reads.
    fn read(&self) -> Vec<(&'static str, Shown, &[u8])>;

    /// The lengths in bytes of those that it fills.
    fn lengths(&self) -> Vec<usize>;

    /// The call: the packed answer.
    fn archive(slices: &mut [&mut [u8]]) -> u64;

    /// What is wrong with what the archive left, whatever the second
    /// implementation gives.
    fn wrong(&self, _left: &Left) -> Option<String> {
        None
    }
}

/// What the second implementation does to a slice.
#[derive(Clone)]
pub enum Wrote {
    Nothing,
    /// All of it.
    Whole(Vec<u8>),
    /// Its start, the rest stays.
    Start(Vec<u8>),
}

impl Wrote {
    /// The whole slice, or nothing.
    pub fn of(slice: Option<Vec<u8>>) -> Wrote {
        slice.map_or(Wrote::Nothing, Wrote::Whole)
    }

    fn over(self, before: &[u8]) -> Vec<u8> {
        match self {
            Wrote::Nothing => before.to_vec(),
            Wrote::Whole(bytes) => bytes,
            Wrote::Start(mut bytes) => {
                bytes.extend(before.iter().skip(bytes.len()));
                bytes
            }
        }
    }
}

/// What the second implementation gives.
#[derive(Clone)]
pub struct Given {
    pub answer: Answer,
    pub slices: Vec<Wrote>,
    /// What is wrong with it by itself, in words.
    pub wrong: Option<String>,
}

impl Given {
    pub fn new(answer: Answer, slices: Vec<Wrote>) -> Given {
        Given { answer, slices, wrong: None }
    }
}

/// What a job compares by, and what it has counted.
pub struct Comparer<'a, C: Comparison> {
    pub comparison: &'a C,
    pub mistake: Option<C::Mistake>,
    pub seed: u64,
    pub tally: Tally,
    pub lender: Lender,
    /// How many cases the job may compare.
    pub most: u64,
    pub stop: &'a AtomicBool,
}

impl<C: Comparison> Comparer<'_, C> {
    /// Whether the job goes on.
    pub fn go_on(&self) -> Ended {
        if self.stop.load(Ordering::Relaxed) {
            return Err(Halt::Stopped);
        }
        if self.tally.compared >= self.most {
            return Err(Halt::Enough);
        }
        Ok(())
    }

    /// Compares both implementations on a call, of which the second is given
    /// the mistake to make.
    pub fn compare<K: Case>(
        &mut self,
        case: &K,
        second: impl FnOnce(Option<C::Mistake>) -> Given,
    ) -> Ended {
        self.go_on()?;
        let given = second(self.mistake);
        let read = case.read();
        let slices: Vec<&[u8]> = read.iter().map(|(_, _, slice)| *slice).collect();
        let lending = self.lender.lend(&slices, &case.lengths(), K::ITEM, K::archive);
        let over = |(wrote, before): (Wrote, &Vec<u8>)| wrote.over(before);
        let second = Left {
            packed: given.answer.packed(),
            slices: given.slices.into_iter().zip(&lending.before).map(over).collect(),
        };
        let altered =
            lending.altered.then(|| "the archive altered bytes that it may not".to_string());
        let wrong = case.wrong(&lending.left);
        let remarks: Vec<String> = [altered, given.wrong, wrong].into_iter().flatten().collect();
        let equal = second.packed == lending.left.packed && second.slices == lending.left.slices;
        if !equal || !remarks.is_empty() {
            let source = case.source();
            return Err(Halt::Difference(report::difference(
                source,
                &read,
                K::FILLED,
                &second,
                &lending,
                &remarks,
            )));
        }
        self.tally.compared += 1;
        let (what, code) = (C::WHAT, given.answer.code);
        self.tally.add(&format!("{what} with code {code}"), 1);
        self.tally.add(&format!("{what} with slices {}", lending.placement.name()), 1);
        Ok(())
    }
}
