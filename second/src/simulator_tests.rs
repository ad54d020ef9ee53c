//! Runs worked out by hand from docs/SHEETS.md.

use crate::accepted::Circuit;
use crate::calls::runs::mistakes::{self, MISTAKES};
use crate::evaluator::{Evaluator, Right};
use crate::matching::{chain, Match};
use crate::records::{bytes, read, A, D, FEEDBACK, IF, KIND};
use crate::rule::IN_FORCE;
use crate::samples::{self, from_words};
use crate::simulator::{ready, run, run_watched, Call};
use crate::values::all_values;
use crate::watch::Watch;

/// Code, place, outputs and the next sheet of a call with right lengths.
fn ran(sheet: &[u8], stimulus: &[u8]) -> (u8, u32, Vec<u8>, Vec<u8>) {
    let output_length = match ready(sheet, stimulus) {
        Ok(ready) => ready.output_length,
        Err(_) => 0,
    };
    let outcome = run(&Call { sheet, stimulus, output_length, next_length: sheet.len() });
    let (outputs, next) = (outcome.outputs.unwrap_or_default(), outcome.next.unwrap_or_default());
    (outcome.answer.code, outcome.answer.place, outputs, next)
}

fn outputs(sheet: &[u8], stimulus: &[u8]) -> Vec<u8> {
    ran(sheet, stimulus).2
}

/// The code and place of a call.
fn refused(sheet: &[u8], stimulus: &[u8], output_length: usize, next_length: usize) -> (u8, u32) {
    let outcome = run(&Call { sheet, stimulus, output_length, next_length });
    assert!(outcome.outputs.is_none() && outcome.next.is_none());
    (outcome.answer.code, outcome.answer.place)
}

/// The words a of some leaf records.
fn leaves(sheet: &[u8], numbers: &[usize]) -> Vec<u16> {
    let records = read(sheet);
    numbers.iter().map(|&number| records[number][A]).collect()
}

#[test]
fn and() {
    let stimulus = [2, 0, 1, 0, 1, 1, 0, 2, 0, 1, 0, 0, 2, 2];
    assert_eq!(outputs(&samples::and(), &stimulus), [2, 0, 1, 2, 0, 0, 2]);
}

#[test]
fn feedbacks() {
    assert_eq!(outputs(&samples::not_feedback(), &[0, 1, 2]), [0, 0, 0]);
    assert_eq!(outputs(&samples::self_feedback(), &[0, 1, 2]), [0, 0, 0]);
    assert_eq!(outputs(&samples::pair_feedback(), &[0]), [1, 1]);
}

/// The applications of the one feedback of a sheet, from a start.
fn applications(sheet: &[u8], start: &[u8], count: usize) -> Vec<Vec<u8>> {
    let Ok(circuit) = Circuit::read(sheet) else { return Vec::new() };
    let feedback = circuit.records.iter().position(|r| r[KIND] == FEEDBACK).unwrap_or(0);
    let mut watch = Watch::nothing();
    let mut evaluator = Evaluator::<Right>::new(&circuit, IN_FORCE, &mut watch);
    evaluator.names = vec![vec![1]];
    let mut values = vec![start.to_vec()];
    for k in 0..count {
        values.push(evaluator.apply(feedback, values[k].clone()));
    }
    values
}

#[test]
fn pair_feedback_chain() {
    let values = applications(&samples::pair_feedback(), &[0, 0], 3);
    assert_eq!(values, [[0, 0], [1, 0], [1, 1], [1, 1]]);
}

/// All fixed points of the one feedback of a sheet, with input 1.
fn fixed_points(sheet: &[u8]) -> Vec<Vec<u8>> {
    let Ok(circuit) = Circuit::read(sheet) else { return Vec::new() };
    let feedback = circuit.records.iter().position(|r| r[KIND] == FEEDBACK).unwrap_or(0);
    let mut watch = Watch::nothing();
    let mut evaluator = Evaluator::<Right>::new(&circuit, IN_FORCE, &mut watch);
    evaluator.names = vec![vec![1]];
    evaluator.fixed_points(feedback)
}

#[test]
fn other_fixed_points() {
    assert_eq!(all_values(&[1, 2]), [[0, 0], [0, 1], [0, 2], [1, 0], [1, 1], [1, 2]]);
    assert_eq!(fixed_points(&samples::self_feedback()), [[0], [1], [2]]);
    assert_eq!(fixed_points(&samples::not_feedback()), [[0]]);
    assert_eq!(fixed_points(&samples::pair_feedback()), [[1, 1]]);
    assert_eq!(fixed_points(&samples::t()), [[2]]);
    for (sheet, others) in [(samples::self_feedback(), true), (samples::t(), false)] {
        let mut watch = Watch::of_types_up_to(3);
        let call =
            Call { sheet: &sheet, stimulus: &[1, 2], output_length: 2, next_length: sheet.len() };
        run_watched(&call, &mut watch);
        assert_eq!((watch.tried, watch.others, watch.not_least), (2, others, false));
    }
}

#[test]
fn t() {
    let t = samples::t();
    assert_eq!(ran(&t, &[1, 2, 1]), (0, 3, vec![2, 1, 1], t.clone()));
    // One flip: the delay holds 1.
    let (code, place, outputs, next) = ran(&t, &[1]);
    assert_eq!((code, place, outputs, leaves(&next, &[4])), (0, 1, vec![2], vec![1]));
    let changed: Vec<usize> = (0..t.len()).filter(|&k| t[k] != next[k]).collect();
    assert_eq!(changed, [4 * 12 + 4]);
    // Undefined asks: the delay holds 0 from then on.
    let (_, _, outputs, next) = ran(&t, &[2, 0, 1, 2]);
    assert_eq!((outputs, leaves(&next, &[4])), (vec![2, 2, 0, 0], vec![0]));
}

/// What the pattern of the one IF of a sheet says on values.
fn said(sheet: &[u8], values: &[&[u8]]) -> Vec<Match> {
    let Ok(circuit) = Circuit::read(sheet) else { return Vec::new() };
    let choice = circuit.records.iter().find(|r| r[KIND] == IF);
    let pattern = choice.map_or(0, |record| record[D]);
    values.iter().map(|value| chain(&circuit, pattern, value)).collect()
}

#[test]
fn patterns() {
    use Match::{No, Undecided, Yes};
    let values: [&[u8]; 6] = [&[0, 0], &[1, 1], &[2, 2], &[1, 2], &[1, 0], &[0, 2]];
    let two_pairs = [Undecided, Yes, Yes, No, Undecided, Undecided];
    assert_eq!(said(&samples::two_pairs(), &values), two_pairs);
    let and = [Undecided, Yes, No, No, Undecided, No];
    assert_eq!(said(&samples::and(), &values), and);
    let on_bit = |first: &[u16], second: &[u16]| {
        bytes(&from_words(&[
            &[1, 1, 1, 2],
            &[16, 0, 2],
            &[39, 0, 3, 6, 7, 4],
            &[33],
            first,
            second,
            &[33],
            &[33],
        ]))
    };
    let either = on_bit(&[49, 5, 1, 1], &[49, 0, 1, 2]);
    assert_eq!(said(&either, &[&[0], &[1], &[2]]), [Undecided, Yes, Yes]);
    let whole = on_bit(&[49, 5, 1, 1], &[48, 0, 1]);
    assert_eq!(said(&whole, &[&[0], &[1], &[2]]), [Yes, Yes, Yes]);
    let once = on_bit(&[49, 5, 1, 1], &[49, 0, 1, 1]);
    assert_eq!(said(&once, &[&[0], &[1], &[2]]), [Undecided, Yes, No]);
}

#[test]
fn delays_in_both_branches_advance() {
    // IF the input is 1 THEN a delay of the input ELSE another one.
    let sheet = bytes(&from_words(&[
        &[1, 1, 1, 2],
        &[16, 0, 3],
        &[39, 0, 3, 5, 8, 4],
        &[33],
        &[49, 0, 1, 1],
        &[40, 0, 1, 6, 7],
        &[64, 0, 2],
        &[33],
        &[40, 0, 1, 9, 10],
        &[64, 0, 3],
        &[33],
    ]));
    let (_, _, outputs, next) = ran(&sheet, &[1, 2, 1, 0, 3]);
    assert_eq!(outputs, [2, 1, 2, 1, 0]);
    assert_eq!(leaves(&next, &[6, 9]), [3, 3]);
}

#[test]
fn delays_in_a_feedback_advance_once() {
    // LET REC x = (delay of (delay of x's second part), the input) IN x.
    let sheet = bytes(&from_words(&[
        &[1, 1, 1, 3],
        &[16, 2, 2],
        &[17, 0, 1, 1],
        &[38, 0, 2, 4, 12],
        &[34, 0, 5, 11],
        &[40, 0, 1, 6, 7],
        &[64, 0, 1],
        &[40, 0, 1, 8, 9],
        &[64, 0, 2],
        &[36, 0, 10],
        &[33],
        &[33, 0, 1],
        &[33],
    ]));
    let (_, _, outputs, next) = ran(&sheet, &[1, 1, 2]);
    assert_eq!(outputs, [1, 1, 2, 1, 1, 2]);
    assert_eq!(leaves(&next, &[6, 8]), [1, 2]);
}

#[test]
fn code_8_stimulus_length() {
    let (t, and) = (samples::t(), samples::and());
    assert_eq!(refused(&t, &[1; 65_536], 65_536, t.len()), (8, 0));
    assert_eq!(ran(&t, &[1; 65_535]).1, 65_535);
    assert_eq!(refused(&and, &[1; 3], 1, and.len()), (8, 0));
    assert_eq!(refused(&and, &[1; 65_535], 32_767, and.len()), (8, 0));
    assert_eq!(ran(&and, &[1; 65_534]).1, 32_767);
    assert_eq!(refused(&and, &[9; 3], 7, 7), (8, 0));
    assert_eq!(refused(&t[..t.len() - 1], &[], 0, 0), (1, 0));
}

#[test]
fn no_cycles() {
    let (t, and) = (samples::t(), samples::and());
    assert_eq!(ran(&t, &[]), (0, 0, vec![], t.clone()));
    assert_eq!(ran(&and, &[]), (0, 0, vec![], and.clone()));
    // After one flip, too: the delay holds 1.
    let flipped = ran(&t, &[1]).3;
    assert_eq!(ran(&flipped, &[]), (0, 0, vec![], flipped.clone()));
    for output_length in [1, 2, 1000] {
        assert_eq!(refused(&t, &[], output_length, t.len()), (10, 0));
        assert_eq!(refused(&t, &[], output_length, 0), (10, 0));
    }
    for next_length in [0, 203, 205, 49_152] {
        assert_eq!(refused(&t, &[], 0, next_length), (11, 204));
    }
    let call = Call { sheet: &t, stimulus: &[], output_length: 0, next_length: t.len() };
    for (name, mistake) in MISTAKES {
        let code = if name == "empty-refused" { 8 } else { 0 };
        assert_eq!(mistakes::run(&call, Some(mistake)).answer.code, code, "{name}");
    }
}

#[test]
fn code_9_byte_above_count() {
    let (t, and) = (samples::t(), samples::and());
    assert_eq!(refused(&t, &[3], 1, t.len()), (9, 0));
    assert_eq!(refused(&and, &[1, 2, 0, 2, 255, 3], 3, and.len()), (9, 4));
    assert_eq!(refused(&and, &[1, 2, 0, 3], 9, 9), (9, 3));
}

#[test]
fn codes_10_and_11_lengths() {
    let (t, pair) = (samples::t(), samples::pair_feedback());
    for output_length in [0, 2, 4, 1000] {
        assert_eq!(refused(&t, &[1, 2, 1], output_length, t.len()), (10, 3));
        assert_eq!(refused(&t, &[1, 2, 1], output_length, 5), (10, 3));
    }
    assert_eq!(refused(&pair, &[1, 2, 1], 3, pair.len()), (10, 6));
    for next_length in [0, 203, 205, 49_152] {
        assert_eq!(refused(&t, &[1, 2, 1], 3, next_length), (11, 204));
    }
}

#[test]
fn slow_feedbacks_settle() {
    let named = |name: &str| crate::shapes::named(name).unwrap_or_default();
    let slow = outputs(&named("slow-feedback-64"), &[2, 0]);
    assert_eq!(slow, [[2; 64], [0; 64]].concat());
    let slow = outputs(&named("three-slow-feedbacks-8"), &[2, 0, 1]);
    assert_eq!(slow, [[2; 8], [0; 8], [1; 8]].concat());
    let mut stimulus = vec![2; 64 * 3];
    stimulus[5] = 1;
    stimulus[64 + 5] = 0;
    let (_, _, outputs, _) = ran(&named("T-64-times"), &stimulus);
    let mut expected = vec![2; 64 * 3];
    expected[64 + 5] = 1;
    expected[128 + 5] = 0;
    assert_eq!(outputs, expected);
}
