//! Both rules for undecided IFs, on sheets written out by hand.

use crate::calls::runs::mistakes::{run, RunMistake};
use crate::evaluator::Right;
use crate::order::sheet_at_or_below;
use crate::records::{bytes, read, A};
use crate::rule::{Rule, IN_FORCE};
use crate::samples::from_words;
use crate::simulator::{run_by, Call, Outcome};
use crate::watch::Watch;

/// The run of a sheet whose input is flat, with an output of so many leaves.
fn ran(rule: Rule, sheet: &[u8], stimulus: &[u8], leaves: usize) -> Outcome {
    let output_length = stimulus.len() * leaves;
    let call = Call { sheet, stimulus, output_length, next_length: sheet.len() };
    run_by::<Right>(rule, &call, &mut Watch::nothing())
}

fn outputs(rule: Rule, sheet: &[u8], stimulus: &[u8], leaves: usize) -> Vec<u8> {
    ran(rule, sheet, stimulus, leaves).outputs.unwrap_or_default()
}

/// A NOT of a feedback, with 1 or 2 for its then branch and 2 for else.
fn fed_back(then: u16) -> Vec<u8> {
    bytes(&from_words(&[
        &[1, 1, 1, 2],
        &[16, 0, 2],
        &[38, 0, 1, 3, 10],
        &[39, 0, 4, 6, 8, 5],
        &[33],
        &[49, 0, 1, 1],
        &[32, 0, 1, 7],
        &[64, 0, then],
        &[32, 0, 1, 9],
        &[64, 0, 2],
        &[33],
    ]))
}

#[test]
fn leaf_by_leaf() {
    assert_eq!(IN_FORCE, Rule::Agreed);
    assert_eq!(Rule::Agreed.undecided(&[1, 2, 0, 3], &[1, 1, 2, 3]), [1, 0, 0, 3]);
    assert_eq!(Rule::Earlier.undecided(&[1, 2, 0, 3], &[1, 1, 2, 3]), [0, 0, 0, 0]);
}

#[test]
fn pairs_that_agree_in_part() {
    // IF the input is 1 THEN (1, 2) ELSE (1, 1).
    let sheet = bytes(&from_words(&[
        &[1, 1, 1, 3],
        &[16, 2, 2],
        &[17, 0, 1, 1],
        &[39, 0, 4, 6, 9, 5],
        &[33],
        &[49, 0, 1, 1],
        &[32, 0, 2, 7],
        &[64, 8, 1],
        &[64, 0, 2],
        &[32, 0, 2, 10],
        &[64, 11, 1],
        &[64, 0, 1],
    ]));
    assert_eq!(outputs(Rule::Agreed, &sheet, &[0, 1, 2], 2), [1, 0, 1, 2, 1, 1]);
    assert_eq!(outputs(Rule::Earlier, &sheet, &[0, 1, 2], 2), [0, 0, 1, 2, 1, 1]);
}

#[test]
fn inside_feedbacks_too() {
    assert_eq!(outputs(Rule::Agreed, &fed_back(2), &[1], 1), [2]);
    assert_eq!(outputs(Rule::Earlier, &fed_back(2), &[1], 1), [0]);
    // Where the branches differ, nothing is decided.
    assert_eq!(outputs(Rule::Agreed, &fed_back(1), &[1], 1), [0]);
    let sheet = &fed_back(2);
    let call = Call { sheet, stimulus: &[1], output_length: 1, next_length: sheet.len() };
    for mistake in [RunMistake::EarlierRule, RunMistake::EarlierRuleInFeedbacks] {
        assert_eq!(run(&call, Some(mistake)).outputs, Some(vec![0]));
    }
}

#[test]
fn the_earlier_rule_is_at_or_below_in_next_sheets() {
    // A delay, from 1, of IF the input is 1 THEN 2 ELSE 2.
    let sheet = bytes(&from_words(&[
        &[1, 1, 1, 2],
        &[16, 0, 2],
        &[40, 0, 1, 3, 4],
        &[64, 0, 1],
        &[39, 0, 5, 7, 9, 6],
        &[33],
        &[49, 0, 1, 1],
        &[32, 0, 1, 8],
        &[64, 0, 2],
        &[32, 0, 1, 10],
        &[64, 0, 2],
    ]));
    let [earlier, agreed] = [Rule::Earlier, Rule::Agreed].map(|rule| {
        let outcome = ran(rule, &sheet, &[0, 0], 1);
        (outcome.outputs.unwrap_or_default(), outcome.next.unwrap_or_default())
    });
    assert_eq!((&earlier.0[..], &agreed.0[..]), (&[1, 0][..], &[1, 2][..]));
    assert_eq!((read(&earlier.1)[3][A], read(&agreed.1)[3][A]), (0, 2));
    assert!(sheet_at_or_below(&earlier.1, &agreed.1));
}
