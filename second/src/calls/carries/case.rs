//! One call for carrying, and how both implementations are compared on it.

use super::archive;
use super::carry::{Call, Outcome};
use super::mistakes::carry;
use super::tally;
use crate::answers::{Answer, NEW_SHEET_REFUSED};
use crate::calls::checks::archive::check as check_of_archive;
use crate::faults::category::Category;
use crate::frame::comparison::{self, Comparer, Given, Halt, Wrote};
use crate::frame::lender::Left;
use crate::frame::report::Shown;
use crate::verdict::check;

/// The comparison of carrying.
pub struct Carries {
    pub categories: Vec<Category>,
}

/// A call to compare.
#[derive(Clone)]
pub struct Case {
    pub source: String,
    pub old: Vec<u8>,
    pub new: Vec<u8>,
    pub next_length: usize,
}

impl comparison::Case for Case {
    const FILLED: &'static [&'static str] = &["next"];

    fn source(&self) -> &str {
        &self.source
    }

    fn read(&self) -> Vec<(&'static str, Shown, &[u8])> {
        vec![("old sheet", Shown::Sheet, &self.old), ("new sheet", Shown::Sheet, &self.new)]
    }

    fn lengths(&self) -> Vec<usize> {
        vec![self.next_length]
    }

    fn archive(slices: &mut [&mut [u8]]) -> u64 {
        let [old, new, next] = slices else { unreachable!("three slices") };
        archive::carry(old, new, next)
    }

    fn wrong(&self, left: &Left) -> Option<String> {
        let unlike = Answer::accepts(left.packed)
            && check_of_archive(&left.slices[0]) != check(&self.new).packed();
        unlike.then(|| "the carried sheet has another verdict than the new one".to_string())
    }
}

impl Comparer<'_, Carries> {
    /// Compares both on a call; hands back the outcome.
    pub fn carries(&mut self, case: &Case) -> Result<Outcome, Halt> {
        let Case { old, new, next_length, .. } = case;
        let outcome = carry(&Call { old, new, next_length: *next_length }, self.mistake);
        let slices = vec![Wrote::of(outcome.next.clone())];
        self.compare(case, |_| Given::new(outcome.answer, slices))?;
        if outcome.answer.code == NEW_SHEET_REFUSED {
            self.tally.add(&tally::of_new_sheet(outcome.answer.place), 1);
        }
        Ok(outcome)
    }
}
