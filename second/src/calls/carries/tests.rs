//! Carrying into a new sheet, worked out by hand from docs/SHEETS.md, "Carrying".

use super::carry::{carry, Call};
use super::mistakes::{self, named, CarryMistake, MISTAKES};
use crate::generate::circuits::circuit;
use crate::generate::delays::{circuit_of_delays, delays, delays_like, shape, varied};
use crate::generate::labels::{label_as, Labels};
use crate::layout::sheet;
use crate::random::Random;
use crate::records::{bytes, read, A, D};
use crate::samples::from_words;
use crate::simulator::{ready, run};
use crate::verdict::check;

/// A delay, record 2, of a type of so many constructors, on the input.
fn one(count: u16, label: u16, value: u16) -> Vec<u8> {
    let words: [&[u16]; 5] =
        [&[1, 1, 1, 2], &[16, 0, count], &[40, 0, 1, 3, 4, label], &[64, 0, value], &[33]];
    bytes(&from_words(&words))
}

/// A pair of delays, records 4 and 7, of two constructors.
fn two(labels: [u16; 2], values: [u16; 2]) -> Vec<u8> {
    let words: [&[u16]; 10] = [
        &[1, 1, 1, 3],
        &[16, 2, 2],
        &[17, 0, 1, 1],
        &[34, 0, 4, 7],
        &[40, 0, 1, 5, 6, labels[0]],
        &[64, 0, values[0]],
        &[33],
        &[40, 0, 1, 8, 9, labels[1]],
        &[64, 0, values[1]],
        &[33],
    ];
    bytes(&from_words(&words))
}

/// The input delayed, of three leaves: type 3 is ((bit, bit), bit), type 4 is
/// (bit, (bit, bit)), and 6 is ((bit, bit), a flat of three). Leaves 8 to 10.
fn three(of: u16, values: [u16; 3]) -> Vec<u8> {
    let words: [&[u16]; 12] = [
        &[1, 1, of, 7],
        &[16, 2, 2],
        &[17, 3, 1, 1],
        &[17, 4, 2, 1],
        &[17, 5, 1, 2],
        &[16, 6, 3],
        &[17, 0, 2, 5],
        &[40, 0, of, 8, 11, 9],
        &[64, 9, values[0]],
        &[64, 10, values[1]],
        &[64, 0, values[2]],
        &[33],
    ];
    bytes(&from_words(&words))
}

fn called(old: &[u8], new: &[u8], next_length: usize) -> (u8, u32, Option<Vec<u8>>) {
    let outcome = carry(&Call { old, new, next_length });
    (outcome.answer.code, outcome.answer.place, outcome.next)
}

/// What a good call leaves.
fn next(old: &[u8], new: &[u8]) -> Vec<u8> {
    let (code, place, next) = called(old, new, new.len());
    assert_eq!((code, place), (0, 0));
    next.unwrap_or_default()
}

#[test]
fn values_are_carried_by_label() {
    assert_eq!(next(&one(2, 5, 1), &one(2, 5, 2)), one(2, 5, 1));
    assert_eq!(next(&one(2, 5, 0), &one(2, 5, 2)), one(2, 5, 0));
    assert_eq!(next(&one(2, 65_535, 1), &one(2, 65_535, 2)), one(2, 65_535, 1));
    // Another label, or none.
    assert_eq!(next(&one(2, 5, 1), &one(2, 6, 2)), one(2, 6, 2));
    assert_eq!(next(&one(2, 5, 1), &one(2, 0, 2)), one(2, 0, 2));
    assert_eq!(next(&one(2, 0, 1), &one(2, 0, 2)), one(2, 0, 2));
    assert_eq!(next(&one(2, 261, 1), &one(2, 5, 2)), one(2, 5, 2));
    // Of two delays each has its own; the order of the records doesn't matter.
    assert_eq!(next(&two([5, 6], [1, 0]), &two([6, 5], [2, 2])), two([6, 5], [0, 1]));
    assert_eq!(next(&two([5, 6], [1, 0]), &two([0, 5], [2, 2])), two([0, 5], [2, 1]));
    assert_eq!(next(&one(2, 5, 1), &two([7, 5], [2, 2])), two([7, 5], [2, 1]));
    // Sheets of other lengths.
    assert_eq!(next(&two([5, 6], [1, 0]), &one(2, 6, 2)), one(2, 6, 0));
}

#[test]
fn shapes_are_compared() {
    // Another count, greater or smaller.
    assert_eq!(next(&one(2, 5, 1), &one(3, 5, 2)), one(3, 5, 2));
    assert_eq!(next(&one(3, 5, 1), &one(2, 5, 2)), one(2, 5, 2));
    // The same type, pairs in other places, and one leaf of another count.
    assert_eq!(next(&three(3, [1, 2, 0]), &three(3, [2, 2, 2])), three(3, [1, 2, 0]));
    assert_eq!(next(&three(3, [1, 2, 0]), &three(4, [2, 2, 2])), three(4, [2, 2, 2]));
    assert_eq!(next(&three(6, [1, 2, 0]), &three(3, [2, 2, 2])), three(3, [2, 2, 2]));
    assert_eq!(next(&three(6, [1, 2, 3]), &three(6, [2, 2, 2])), three(6, [1, 2, 3]));
    // A flat against a pair.
    assert_eq!(next(&one(2, 9, 1), &three(3, [2, 2, 2])), three(3, [2, 2, 2]));
    assert_eq!(next(&three(3, [1, 1, 1]), &one(2, 9, 2)), one(2, 9, 2));
    // Type 4 of the new sheet is ((bit, bit), bit), as 3 of the old one.
    let mut moved = read(&three(3, [2, 2, 2]));
    moved[0][A] = 4;
    moved[1] = [16, 2, 7, 0, 0, 0];
    moved[2] = [16, 3, 2, 0, 0, 0];
    moved[3] = [17, 4, 2, 2, 0, 0];
    moved[4] = [17, 5, 3, 2, 0, 0];
    moved[6] = [17, 0, 3, 5, 0, 0];
    moved[7][A] = 4;
    let taken = read(&next(&three(3, [1, 2, 0]), &bytes(&moved)));
    assert_eq!([taken[8][A], taken[9][A], taken[10][A]], [1, 2, 0]);
}

#[test]
fn refusals_in_order() {
    let (good, twice, ill) = (two([5, 6], [1, 1]), two([5, 5], [1, 1]), one(2, 5, 3));
    let refused = |old: &[u8], new: &[u8], length: usize| {
        let (code, place, next) = called(old, new, length);
        assert!(next.is_none());
        (code, place)
    };
    // The old sheet, by its own code and place; the new one, by its code.
    assert_eq!(refused(&ill, &good, 120), (7, 2));
    assert_eq!(refused(&[], &ill, 0), (1, 0));
    assert_eq!(refused(&good, &ill, 60), (18, 7));
    assert_eq!(refused(&good, &good[..11], 11), (18, 1));
    assert_eq!(refused(&twice, &ill, 0), (18, 7));
    // A label twice: the second bearer, old first.
    assert_eq!(refused(&twice, &good, 120), (19, 7));
    assert_eq!(refused(&good, &twice, 120), (19, 7));
    assert_eq!(refused(&twice, &one(2, 5, 1), 0), (19, 7));
    assert_eq!(refused(&good, &twice, 0), (19, 7));
    // 0 twice is no label twice.
    assert_eq!(called(&two([0, 0], [1, 1]), &two([0, 0], [2, 2]), 120).0, 0);
    // The length of the new sheet.
    assert_eq!(refused(&good, &one(2, 5, 1), 120), (11, 60));
    assert_eq!(refused(&one(2, 5, 1), &good, 60), (11, 120));
    assert_eq!(refused(&good, &good, 0), (11, 120));
}

/// Three delays, records 3, 7 and 10, with these labels.
fn row(labels: [u16; 3]) -> Vec<u8> {
    let words: [&[u16]; 13] = [
        &[1, 1, 1, 2],
        &[16, 0, 2],
        &[37, 0, 3, 6],
        &[40, 0, 1, 4, 5, labels[0]],
        &[64, 0, 1],
        &[33],
        &[37, 0, 7, 10],
        &[40, 0, 1, 8, 9, labels[1]],
        &[64, 0, 1],
        &[33],
        &[40, 0, 1, 11, 12, labels[2]],
        &[64, 0, 1],
        &[33],
    ];
    bytes(&from_words(&words))
}

#[test]
fn the_lowest_second_bearer() {
    let good = one(2, 1, 1);
    let place = |labels: [u16; 3]| called(&row(labels), &good, 60).1;
    assert_eq!(check(&row([1, 2, 3])).code, 0);
    assert_eq!(place([1, 2, 3]), 0);
    assert_eq!(place([4, 4, 9]), 7);
    assert_eq!(place([4, 9, 4]), 10);
    assert_eq!(place([9, 4, 4]), 10);
    assert_eq!(place([4, 4, 4]), 7);
    assert_eq!(place([0, 0, 0]), 0);
    let with = |mistake| {
        mistakes::carry(&Call { old: &row([4, 4, 4]), new: &good, next_length: 60 }, mistake)
    };
    assert_eq!(with(Some(CarryMistake::FirstBearer)).answer.place, 3);
    assert_eq!(with(Some(CarryMistake::HighestBearer)).answer.place, 10);
    assert_eq!(named("zero-counted"), Some(CarryMistake::ZeroCounted));
    assert!(named("none").is_none());
}

#[test]
fn a_running_sheet_is_carried_whole() {
    let mut random = Random::new(51);
    for _ in 0..300 {
        let mut draft = circuit(&mut random);
        label_as(&mut draft, Labels::Distinct, &mut random);
        let start = sheet(&draft, &mut random);
        let Ok(made) = ready(&start, &[]) else { panic!("refused") };
        let stimulus = made.circuit.counts(made.circuit.input()).repeat(2);
        let output_length = 2 * made.leaves;
        let (sheet, stimulus) = (&start[..], &stimulus[..]);
        let call =
            crate::simulator::Call { sheet, stimulus, output_length, next_length: start.len() };
        let running = run(&call).next.unwrap_or_default();
        assert_eq!(next(&running, &start), running);
    }
}

#[test]
fn carried_sheets_are_accepted() {
    let mut random = Random::new(52);
    for _ in 0..500 {
        let old = delays(Labels::Some, &mut random);
        let new = delays_like(&old, &mut random);
        let [old, new] =
            [old, new].map(|list| sheet(&circuit_of_delays(&list, &mut random), &mut random));
        assert_eq!(check(&next(&old, &new)), check(&new));
        for (_, mistake) in MISTAKES {
            let outcome =
                mistakes::carry(&Call { old: &old, new: &new, next_length: 7 }, Some(mistake));
            assert_ne!(outcome.answer.code, 0);
        }
    }
}

#[test]
fn varied_shapes_differ() {
    let mut random = Random::new(53);
    let varies = (0..200).filter(|_| {
        let one = shape(6, &mut random);
        varied(&one, &mut random) != one
    });
    assert!(varies.count() > 150);
    assert_eq!(read(&two([5, 6], [1, 0]))[7][D], 6);
}
