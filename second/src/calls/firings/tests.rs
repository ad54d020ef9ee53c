//! Fired alternatives worked out by hand from docs/SHEETS.md, "Which alternative
//! fired".

use super::firing::{firing, Call};
use super::mistakes::{self, MISTAKES};
use crate::records::{bytes, read, A};
use crate::samples::{self, from_words};

/// The code, the place and the slice, which holds 7s beforehand.
fn told(sheet: &[u8], stimulus: &[u8], fired_length: usize) -> (u8, u32, Vec<u16>) {
    let outcome = firing(&Call { sheet, stimulus, fired_length });
    let words = outcome.fired.unwrap_or(vec![7; fired_length]);
    (outcome.answer.code, outcome.answer.place, words)
}

/// The words that are not 0 of a call that nothing refuses.
fn fired(sheet: &[u8], stimulus: &[u8]) -> Vec<(usize, u16)> {
    let records = read(sheet).len();
    let (code, place, words) = told(sheet, stimulus, records);
    assert_eq!((code, place, words.len()), (0, 0, records));
    words.into_iter().enumerate().filter(|(_, word)| *word != 0).collect()
}

/// T whose delay holds this value.
fn t_holding(held: u16) -> Vec<u8> {
    let mut records = read(&samples::t());
    records[4][A] = held;
    bytes(&records)
}

/// IF 5 tests the input by 7, IF 8 what the delay holds by 10.
#[test]
fn of_t() {
    assert_eq!(fired(&t_holding(2), &[1]), [(5, 7), (8, 10)]);
    assert_eq!(fired(&t_holding(2), &[2]), [(8, 10)]);
    assert_eq!(fired(&t_holding(1), &[1]), [(5, 7)]);
    assert_eq!(fired(&t_holding(1), &[2]), []);
    assert_eq!(fired(&t_holding(2), &[0]), [(8, 10)]);
    assert_eq!(fired(&t_holding(0), &[1]), [(5, 7)]);
    assert_eq!(fired(&t_holding(0), &[0]), []);
}

/// The pattern of an IF on the input, a pair of bits: (1,1), (2,whole), (whole,2)
/// and the whole pair, as far as they are asked for.
fn four_alternatives(last: u16) -> Vec<u8> {
    let mut records = from_words(&[
        &[1, 1, 2, 3],
        &[16, 2, 2],
        &[17, 0, 1, 1],
        &[39, 0, 4, 5, 6, 7],
        &[33],
        &[33],
        &[33],
        &[50, 10, 8, 9],
        &[49, 0, 1, 1],
        &[49, 0, 1, 1],
        &[50, 13, 11, 12],
        &[49, 0, 1, 2],
        &[48, 0, 1],
        &[50, last, 14, 15],
        &[48, 0, 1],
        &[49, 0, 1, 2],
    ]);
    if last != 0 {
        records.push([48, 0, 2, 0, 0, 0]);
        records[0][4] += 1;
    }
    bytes(&records)
}

#[test]
fn first_yes_of_the_chain() {
    let fires = |input: [u8; 2]| fired(&four_alternatives(0), &input);
    assert_eq!(fires([1, 1]), [(3, 7)]);
    // The second and the third say yes; the second is the first of them.
    assert_eq!(fires([2, 2]), [(3, 10)]);
    assert_eq!(fires([2, 1]), [(3, 10)]);
    assert_eq!(fires([1, 2]), [(3, 13)]);
    // The first is undecided, or the second, before one that says yes.
    assert_eq!(fires([0, 2]), [(3, 13)]);
    assert_eq!(fires([2, 0]), [(3, 10)]);
    // Undecided in all that do not say no.
    assert_eq!(fires([1, 0]), []);
    assert_eq!(fires([0, 0]), []);
    // The whole type says yes also on undefined.
    let whole = |input: [u8; 2]| fired(&four_alternatives(16), &input);
    assert_eq!(whole([0, 0]), [(3, 16)]);
    assert_eq!(whole([1, 0]), [(3, 16)]);
    assert_eq!(whole([2, 1]), [(3, 10)]);
}

/// The chain told of is the IF's own, not one inside a pair pattern.
#[test]
fn chains_inside_pairs() {
    let sheet = bytes(&from_words(&[
        &[1, 1, 2, 3],
        &[16, 2, 2],
        &[17, 0, 1, 1],
        &[39, 0, 4, 5, 6, 7],
        &[33],
        &[33],
        &[33],
        &[50, 0, 8, 10],
        &[49, 9, 1, 1],
        &[49, 0, 1, 2],
        &[48, 0, 1],
    ]));
    assert_eq!(fired(&sheet, &[2, 0]), [(3, 7)]);
    assert_eq!(fired(&sheet, &[0, 1]), []);
}

/// LET REC x = (IF x's second part is 2|1 THEN 1 ELSE 1, the input) IN IF x is
/// (1,whole)|whole THEN x ELSE x. In the first round x is undefined: the IF in
/// the defining part is undecided, and agrees on 1. x settles at (1, input).
fn in_feedback() -> Vec<u8> {
    bytes(&from_words(&[
        &[1, 1, 1, 3],
        &[16, 2, 2],
        &[17, 0, 1, 1],
        &[38, 0, 2, 4, 15],
        &[34, 0, 5, 14],
        &[39, 0, 6, 10, 12, 8],
        &[36, 0, 7],
        &[33],
        &[49, 9, 1, 2],
        &[49, 0, 1, 1],
        &[32, 0, 1, 11],
        &[64, 0, 1],
        &[32, 0, 1, 13],
        &[64, 0, 1],
        &[33, 0, 1],
        &[39, 0, 16, 17, 18, 19],
        &[33],
        &[33],
        &[33],
        &[50, 22, 20, 21],
        &[49, 0, 1, 1],
        &[48, 0, 1],
        &[48, 0, 2],
    ]))
}

#[test]
fn at_the_settled_value() {
    assert_eq!(fired(&in_feedback(), &[2]), [(5, 8), (15, 19)]);
    assert_eq!(fired(&in_feedback(), &[1]), [(5, 9), (15, 19)]);
    assert_eq!(fired(&in_feedback(), &[0]), [(15, 19)]);
}

/// x = LET REC y = IF x is 1 THEN 1 ELSE y IN IF y is 1 THEN the input ELSE the
/// input: x is the input, and y is 1 where that is 1, else undefined.
#[test]
fn in_nested_feedbacks() {
    let sheet = bytes(&from_words(&[
        &[1, 1, 1, 2],
        &[16, 0, 2],
        &[38, 0, 1, 3, 15],
        &[38, 0, 1, 4, 10],
        &[39, 0, 5, 7, 9, 6],
        &[33, 0, 1],
        &[49, 0, 1, 1],
        &[32, 0, 1, 8],
        &[64, 0, 1],
        &[33],
        &[39, 0, 11, 13, 14, 12],
        &[33],
        &[49, 0, 1, 1],
        &[33, 0, 2],
        &[33, 0, 2],
        &[33],
    ]));
    assert_eq!(fired(&sheet, &[1]), [(4, 6), (10, 12)]);
    assert_eq!(fired(&sheet, &[2]), []);
    assert_eq!(fired(&sheet, &[0]), []);
}

/// Two IFs on one pattern, 1|2, each with its own number: the first tests the
/// input, the second a delay that holds 2.
#[test]
fn shared_patterns() {
    let sheet = bytes(&from_words(&[
        &[1, 1, 1, 3],
        &[16, 2, 3],
        &[17, 0, 1, 1],
        &[34, 0, 4, 5],
        &[39, 0, 6, 7, 8, 14],
        &[39, 0, 9, 12, 13, 14],
        &[33],
        &[33],
        &[33],
        &[40, 0, 1, 10, 11],
        &[64, 0, 2],
        &[33],
        &[33],
        &[33],
        &[49, 15, 1, 1],
        &[49, 0, 1, 2],
    ]));
    assert_eq!(fired(&sheet, &[1]), [(4, 14), (5, 15)]);
    assert_eq!(fired(&sheet, &[2]), [(4, 15), (5, 15)]);
    assert_eq!(fired(&sheet, &[3]), [(5, 15)]);
    assert_eq!(fired(&sheet, &[0]), [(5, 15)]);
}

#[test]
fn refusals() {
    let t = samples::t();
    for stimulus in [&[][..], &[1, 2], &[1; 3], &[1; 65_535], &[1; 65_536]] {
        assert_eq!(told(&t, stimulus, 17), (8, 0, vec![7; 17]));
    }
    let and = samples::and();
    for stimulus in [&[][..], &[1], &[1, 1, 1], &[1, 1, 1, 1]] {
        assert_eq!(told(&and, stimulus, 12), (8, 0, vec![7; 12]));
    }
    assert_eq!(told(&t, &[3], 17), (9, 0, vec![7; 17]));
    assert_eq!(told(&and, &[2, 3], 12), (9, 1, vec![7; 12]));
    // 16 at the words needed.
    for length in [0, 1, 16, 18, 34, 204] {
        assert_eq!(told(&t, &[1], length), (16, 17, vec![7; length]));
    }
    // The lowest first.
    assert_eq!(told(&t[1..], &[], 5).0, 1);
    assert_eq!(told(&t, &[3, 3], 5).0, 8);
    assert_eq!(told(&t, &[3], 5).0, 9);
}

/// Each mistake shows on some call.
#[test]
fn mistakes_show() {
    let calls: [(Vec<u8>, &[u8], usize); 9] = [
        (samples::t(), &[1], 17),
        (samples::t(), &[1], 16),
        (samples::t(), &[], 17),
        (samples::t(), &[1, 1], 17),
        (samples::t(), &[3], 16),
        (four_alternatives(0), &[2, 2], 16),
        (four_alternatives(0), &[0, 2], 16),
        (in_feedback(), &[1], 23),
        (in_feedback(), &[2], 23),
    ];
    for (name, mistake) in MISTAKES {
        let shows = calls.iter().any(|(sheet, stimulus, fired_length)| {
            let call = Call { sheet, stimulus, fired_length: *fired_length };
            let (right, wrong) = (firing(&call), mistakes::firing(&call, Some(mistake)));
            (right.answer, right.fired) != (wrong.answer, wrong.fired)
        });
        assert!(shows, "{name}");
    }
}
