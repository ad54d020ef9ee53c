//! Compares both implementations on one count at a time.

use super::case::{beside, Case};
use super::counting::Outcome;
use super::mistakes::count;
use super::tally;
use crate::answers::ACCEPTED;
use crate::faults::category::Category;
use crate::frame::comparison::{Comparer, Ended, Given, Halt, Wrote};

/// The comparison of counts.
pub struct Counts {
    pub categories: Vec<Category>,
}

impl Comparer<'_, Counts> {
    /// Compares both on a call; hands back what the second gives.
    pub fn counts(&mut self, case: &Case) -> Result<Outcome, Halt> {
        self.go_on()?;
        let outcome = count(&case.call(), self.mistake);
        let given = Given::new(outcome.answer, vec![Wrote::Whole(beside(&outcome.counters))]);
        self.compare(&case.lent(), |_| given)?;
        self.tally.add_if(tally::ACCEPTED_ONES, outcome.answer.code == ACCEPTED);
        Ok(outcome)
    }

    /// Compares both on a call that keeps every rule, and counts what came up.
    pub fn good_count(&mut self, case: &Case) -> Ended {
        let outcome = self.counts(case)?;
        if self.mistake.is_none() {
            for (name, holds) in tally::came_up(case, &outcome.counters) {
                self.tally.add_if(name, holds);
            }
        }
        Ok(())
    }
}
