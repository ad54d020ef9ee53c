//! The order of sheets and runs, on sheets written out by hand.

use crate::calls::runs::mistakes::{run, RunMistake};
use crate::order::{
    delay_values, lower_sheet, lower_stimulus, only_delays_differ, sheet_at_or_below,
};
use crate::random::Random;
use crate::records::{bytes, read, A};
use crate::samples::{self, from_words};
use crate::simulator::Call;
use crate::values::at_or_below;

/// A sheet with another word a in one record.
fn with(sheet: &[u8], record: usize, a: u16) -> Vec<u8> {
    let mut records = read(sheet);
    records[record][A] = a;
    bytes(&records)
}

/// The outputs and the next sheet of a run.
fn ran(sheet: &[u8], stimulus: &[u8], mistake: Option<RunMistake>) -> (Vec<u8>, Vec<u8>) {
    let call = Call { sheet, stimulus, output_length: stimulus.len(), next_length: sheet.len() };
    let outcome = run(&call, mistake);
    (outcome.outputs.unwrap_or_default(), outcome.next.unwrap_or_default())
}

#[test]
fn values_in_order() {
    assert!(at_or_below(&[0, 1, 0], &[2, 1, 0]));
    assert!(!at_or_below(&[1, 1], &[2, 1]));
    assert!(!at_or_below(&[1], &[0]));
}

#[test]
fn sheets_in_order() {
    // The delay of T holds leaf 4; leaf 12 is that of a constant.
    let t = samples::t();
    let (undefined, other) = (with(&t, 4, 0), with(&t, 4, 1));
    assert_eq!((delay_values(&t), delay_values(&undefined)), (vec![2], vec![0]));
    assert!(sheet_at_or_below(&t, &t) && sheet_at_or_below(&undefined, &t));
    assert!(!sheet_at_or_below(&t, &undefined) && !sheet_at_or_below(&other, &t));
    assert!(only_delays_differ(&other, &t));
    assert!(!only_delays_differ(&with(&t, 12, 0), &t));
    assert!(!sheet_at_or_below(&with(&t, 12, 0), &t));
    assert!(!only_delays_differ(&t[12..], &t[12..]));
    assert!(!only_delays_differ(&samples::and(), &t));
}

#[test]
fn lowered_is_at_or_below() {
    let random = &mut Random::new(1);
    let t = samples::t();
    assert_eq!(lower_sheet(&t, 1, random), with(&t, 4, 0));
    assert_eq!(lower_stimulus(&[1, 2, 1], 1, random), [0, 0, 0]);
    for _ in 0..100 {
        assert!(sheet_at_or_below(&lower_sheet(&t, 2, random), &t));
        assert!(at_or_below(&lower_stimulus(&[1, 2, 1], 2, random), &[1, 2, 1]));
    }
}

#[test]
fn a_lower_stimulus_gives_lower_outputs() {
    let t = samples::t();
    let (outputs, next) = ran(&t, &[1, 2, 1], None);
    let (lower_outputs, lower_next) = ran(&t, &[1, 0, 1], None);
    assert_eq!((&outputs[..], &lower_outputs[..]), (&[2, 1, 1][..], &[2, 1, 0][..]));
    assert!(sheet_at_or_below(&lower_next, &next) && lower_next != next);
}

#[test]
fn else_when_undecided_keeps_no_order() {
    // IF the input is 1 THEN 1 ELSE 2.
    let choice = bytes(&from_words(&[
        &[1, 1, 1, 2],
        &[16, 0, 2],
        &[39, 0, 3, 5, 7, 4],
        &[33],
        &[49, 0, 1, 1],
        &[32, 0, 1, 6],
        &[64, 0, 1],
        &[32, 0, 1, 8],
        &[64, 0, 2],
    ]));
    assert_eq!(ran(&choice, &[0, 1, 2], None).0, [0, 1, 2]);
    let mistake = Some(RunMistake::ElseWhenUndecided);
    assert_eq!(ran(&choice, &[0, 1, 2], mistake).0, [2, 1, 2]);
}
