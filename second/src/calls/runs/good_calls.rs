//! Compares calls that keep every rule, and counts what comes up in them.

use super::case::{Case, Runs};
use super::cases::Frame;
use super::mistakes::{run_by, RunMistake};
use super::tally;
use crate::frame::comparison::{self, Ended};
use crate::labels::labels;
use crate::records::{read, KIND, KINDS, MAX_RECORDS};
use crate::rule::Rule;
use crate::simulator::Outcome;
use crate::structure::{choices_on, depths, nestings};
use crate::watch::Watch;

type Comparer<'a> = comparison::Comparer<'a, Runs>;

/// Compares a call that keeps every rule, and counts what came up in it.
pub fn compare_good(to: &mut Comparer, case: &Case, frame: &Frame, values: usize) -> Ended {
    let mut watch = Watch::of_types_up_to(values);
    let outcome = to.runs_watched(case, &mut watch)?;
    let (Some(outputs), Some(next)) = (&outcome.outputs, &outcome.next) else { return Ok(()) };
    let records = read(&case.sheet);
    let mut cycles = outputs.chunks(frame.output);
    let first = cycles.next();
    let counts = [
        (tally::SHEETS, several(case, frame)),
        (tally::DEFINED, outputs.iter().any(|&leaf| leaf != 0)),
        (tally::CHANGED, *next != case.sheet),
        (tally::LABELLED, *next != case.sheet && labels(next).iter().any(|&label| label != 0)),
        (tally::OUTPUTS_DIFFER, cycles.any(|cycle| Some(cycle) != first)),
        (tally::OTHERS, watch.others),
        (tally::SLOW, watch.most > 16),
        (tally::SLOWEST, watch.most == 64),
        (tally::NESTED, nestings(&records).contains(&3)),
        (tally::WIDE, frame.widest == 64),
        (tally::CHAINS, frame.longest_chain == 64),
        (tally::DEEP, depths(&records).contains(&64)),
        (tally::LONGEST, records.len() == MAX_RECORDS),
        (tally::SHARED, choices_on(&records).into_iter().any(|count| count > 1)),
        (tally::NO_CYCLES, case.stimulus.is_empty()),
        (tally::MANY_CYCLES, case.stimulus.len() > 60_000),
    ];
    counts.into_iter().for_each(|(name, holds)| to.tally.add_if(name, holds));
    to.tally.add(tally::TRIED, watch.tried);
    if to.mistake.is_none() {
        count_rules(to, case, &outcome);
    }
    for kind in KINDS {
        let has = records.iter().any(|record| record[KIND] == kind);
        to.tally.add_if(&tally::with_kind(kind), has);
    }
    Ok(())
}

/// Counts a run on which the two rules for undecided IFs differ, and one on
/// which it matters inside feedbacks which rule it is.
fn count_rules(to: &mut Comparer, case: &Case, outcome: &Outcome) {
    let differs = |rule: Rule, mistake: Option<RunMistake>| {
        let other = run_by(rule, &case.call(), mistake, &mut Watch::nothing());
        other.outputs != outcome.outputs || other.next != outcome.next
    };
    if !differs(Rule::Earlier, None) {
        return;
    }
    to.tally.add(tally::RULES, 1);
    let inside = differs(Rule::Agreed, Some(RunMistake::EarlierRuleInFeedbacks));
    to.tally.add(tally::RULES_IN_FEEDBACKS, u64::from(inside));
}

/// Whether a call is one of at least three cycles.
pub fn several(case: &Case, frame: &Frame) -> bool {
    case.stimulus.len() >= 3 * frame.counts.len()
}
