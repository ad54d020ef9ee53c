//! Compares both implementations on one call at a time.

use super::case::{call_of, Lent};
use super::mistakes::remaining;
use super::promises::not_kept_by_second;
use super::tally;
use crate::answers::{Answer, ACCEPTED};
use crate::faults::category::Category;
use crate::frame::comparison::{Comparer, Ended, Given, Halt, Wrote};
use crate::one_cycle::kind::Case;

/// The comparison of counts of what remains possible.
pub struct Possibles {
    pub categories: Vec<Category>,
}

impl Comparer<'_, Possibles> {
    /// Compares both on a call; hands back the second's answer.
    pub fn call(&mut self, case: &Case) -> Result<Answer, Halt> {
        self.lent(case, false)
    }

    /// Compares both on a call, and counts what came up where it is accepted.
    pub fn counted_call(&mut self, case: &Case) -> Result<Answer, Halt> {
        let answer = self.lent(case, false)?;
        self.count(case, answer);
        Ok(answer)
    }

    /// The same on a call with few ways to fill its undefined leaves: what is
    /// promised of it is tried in all of them.
    pub fn filled_call(&mut self, case: &Case) -> Ended {
        let answer = self.lent(case, self.mistake.is_none())?;
        self.count(case, answer);
        Ok(())
    }

    fn lent(&mut self, case: &Case, filled: bool) -> Result<Answer, Halt> {
        self.go_on()?;
        let outcome = remaining(&call_of(case), self.mistake);
        let answer = outcome.answer;
        let tried = filled && answer.code == ACCEPTED;
        let wrong = tried.then(|| not_kept_by_second(case)).flatten();
        let given = Given { wrong, ..Given::new(answer, vec![Wrote::of(outcome.counts)]) };
        self.compare(&Lent { case, filled }, |_| given)?;
        self.tally.add_if(tally::ACCEPTED_ONES, answer.code == ACCEPTED);
        Ok(answer)
    }

    fn count(&mut self, case: &Case, answer: Answer) {
        if self.mistake.is_none() && answer.code == ACCEPTED {
            for (name, holds) in tally::came_up(case) {
                self.tally.add_if(name, holds);
            }
        }
    }
}
