//! Compares both implementations on one call at a time.

use std::marker::PhantomData;

use super::kind::{Case, Kind};
use super::tally;
use crate::answers::{Answer, ACCEPTED};
use crate::faults::category::Category;
use crate::frame::comparison::{self, Comparer, Comparison, Ended, Given, Halt, Wrote};
use crate::frame::lender::Left;
use crate::frame::report::Shown;

/// The comparison of a kind of call.
pub struct OneCycle<K> {
    pub categories: Vec<Category>,
    pub kind: PhantomData<K>,
}

/// A call of a kind.
struct Of<'a, K>(&'a Case, PhantomData<K>);

impl<K: Kind> comparison::Case for Of<'_, K> {
    const FILLED: &'static [&'static str] = &["filled"];
    const ITEM: usize = K::ITEM;

    fn source(&self) -> &str {
        &self.0.source
    }

    fn read(&self) -> Vec<(&'static str, Shown, &[u8])> {
        vec![("sheet", Shown::Sheet, &self.0.sheet), ("stimulus", Shown::Bytes, &self.0.stimulus)]
    }

    fn lengths(&self) -> Vec<usize> {
        vec![self.0.slice_length * K::ITEM]
    }

    fn archive(slices: &mut [&mut [u8]]) -> u64 {
        let [sheet, stimulus, slice] = slices else { unreachable!("three slices") };
        K::archive(sheet, stimulus, slice)
    }

    fn wrong(&self, left: &Left) -> Option<String> {
        K::wrong(self.0, left)
    }
}

impl<K: Kind> Comparer<'_, OneCycle<K>>
where
    OneCycle<K>: Comparison<Mistake = K::Mistake>,
{
    /// Compares both on a call; hands back the answer.
    pub fn call(&mut self, case: &Case) -> Result<Answer, Halt> {
        let outcome = K::second(case, self.mistake);
        let answer = outcome.answer;
        let given = Given::new(answer, vec![Wrote::of(outcome.slice)]);
        self.compare(&Of::<K>(case, PhantomData), |_| given)?;
        self.tally.add_if(&tally::accepted(K::WHAT), answer.code == ACCEPTED);
        Ok(answer)
    }

    /// Compares both on a call that keeps every rule, and counts what came up.
    pub fn good_call(&mut self, case: &Case) -> Ended {
        self.call(case)?;
        if self.mistake.is_none() {
            for (name, holds) in K::counts(case) {
                self.tally.add_if(name, holds);
            }
        }
        Ok(())
    }
}
