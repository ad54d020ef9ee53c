//! Compares both implementations on one press at a time.

use super::case::{beside, Case};
use super::mistakes::press;
use super::press::Outcome;
use super::tally;
use crate::answers::ACCEPTED;
use crate::faults::category::Category;
use crate::frame::comparison::{Comparer, Ended, Given, Halt, Wrote};

/// The comparison of presses.
pub struct Presses {
    pub categories: Vec<Category>,
}

impl Comparer<'_, Presses> {
    /// Compares both on a call; hands back what the second gives.
    pub fn presses(&mut self, case: &Case) -> Result<Outcome, Halt> {
        let outcome = press(&case.call(), self.mistake);
        let given = Given::new(outcome.answer, vec![Wrote::Whole(beside(&outcome))]);
        self.compare(&case.lent(), |_| given)?;
        self.tally.add_if(tally::ACCEPTED_ONES, outcome.answer.code == ACCEPTED);
        Ok(outcome)
    }

    /// Compares both on a call that keeps every rule, and counts what came up.
    pub fn good_press(&mut self, case: &Case) -> Ended {
        let outcome = self.presses(case)?;
        if self.mistake.is_none() {
            for (name, holds) in tally::counts(case, outcome.change) {
                self.tally.add_if(name, holds);
            }
        }
        Ok(())
    }
}
