//! The two rules for undecided IFs on one call: the second simulator's run by
//! the earlier rule is to be at or below the archive's run by the one in force.

use super::cases::any;
use super::mistakes::RunMistake;
use super::ordered::{archive_run, second_run, Pair, Pairs};
use crate::frame::lender::Lender;
use crate::random::Random;
use crate::records::{read, FEEDBACK, KIND};
use crate::rule::{Rule, IN_FORCE};

const OUTPUTS: &str = "runs with strictly lower outputs by the earlier rule";
const DELAYS: &str = "runs with strictly lower delay leaves by the earlier rule";
const FEEDBACKS: &str = "runs with a feedback and strictly lower outputs by the earlier rule";

/// Runs by the earlier rule and by the one in force.
pub struct Rules;

impl Pairs for Rules {
    const COMMAND: &'static str = "rules";
    const WHAT: &'static str = "runs";
    const CASES: &'static str = "--runs";
    const LEAST: u64 = 20_000;
    const QUOTAS: &'static [(&'static str, u64)] =
        &[(OUTPUTS, 2_000), (DELAYS, 500), (FEEDBACKS, 1_000)];
    const MISTAKES: &'static [(&'static str, RunMistake)] =
        &[("else-when-undecided", RunMistake::ElseWhenUndecided)];

    /// Both runs of a call; a mistake is made in that by the earlier rule.
    fn make(lender: &mut Lender, mistake: Option<RunMistake>, random: &mut Random) -> Option<Pair> {
        assert!(IN_FORCE != Rule::Earlier, "the earlier rule is in force");
        let case = any("one call", random)?;
        let earlier = second_run(Rule::Earlier, &case, mistake);
        let (in_force, altered) = archive_run(lender, &case);
        Some(Pair { cases: [case.clone(), case], left: [earlier, in_force], altered })
    }

    fn counts(pair: &Pair) -> Vec<(&'static str, bool)> {
        let feedback = read(&pair.cases[0].sheet).iter().any(|record| record[KIND] == FEEDBACK);
        let outputs = pair.outputs_lower();
        vec![(OUTPUTS, outputs), (DELAYS, pair.delays_lower()), (FEEDBACKS, outputs && feedback)]
    }
}
