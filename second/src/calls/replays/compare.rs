//! Compares both implementations on one replay at a time.

use super::case::{beside, Case};
use super::cases::Ran;
use super::mistakes::replay;
use super::replay::Outcome;
use super::tally;
use crate::answers::ACCEPTED;
use crate::faults::category::Category;
use crate::frame::comparison::{Comparer, Ended, Given, Halt, Wrote};

/// The comparison of replays.
pub struct Replays {
    pub categories: Vec<Category>,
}

impl Comparer<'_, Replays> {
    /// Compares both on a call; hands back what the second gives.
    pub fn replays(&mut self, case: &Case) -> Result<Outcome, Halt> {
        let outcome = replay(&case.call(), self.mistake);
        let slices = vec![Wrote::of(outcome.next.clone()), Wrote::Whole(beside(&outcome))];
        self.compare(case, |_| Given::new(outcome.answer, slices))?;
        self.tally.add_if(tally::ACCEPTED_ONES, outcome.answer.code == ACCEPTED);
        Ok(outcome)
    }

    /// Compares both on a call that keeps every rule, and counts what came up.
    pub fn good_replay(&mut self, case: &Case, ran: &Ran) -> Ended {
        self.replays(case)?;
        for (name, holds) in tally::counts(case, ran) {
            self.tally.add_if(&name, holds);
        }
        Ok(())
    }
}
