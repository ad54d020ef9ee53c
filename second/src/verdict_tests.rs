//! Verdicts worked out by hand from docs/SHEETS.md.

use crate::answers::Answer;
use crate::records::{bytes, read, Record, A, B, C, D, KIND, NEXT};
use crate::samples::{self, from_words};
use crate::shapes;
use crate::verdict::check;

pub fn verdict(sheet: &[u8]) -> (u8, u32) {
    let Answer { code, place } = check(sheet);
    (code, place)
}

/// The verdict on records given by their words.
pub fn judged(words: &[&[u16]]) -> (u8, u32) {
    verdict(&bytes(&from_words(words)))
}

/// The verdict on a sheet with some words changed: (record, word, value).
pub fn changed(sheet: Vec<u8>, changes: &[(usize, usize, u16)]) -> (u8, u32) {
    let mut records: Vec<Record> = read(&sheet);
    for &(number, word, value) in changes {
        records[number][word] = value;
    }
    verdict(&bytes(&records))
}

pub fn t(changes: &[(usize, usize, u16)]) -> (u8, u32) {
    changed(samples::t(), changes)
}

pub fn and(changes: &[(usize, usize, u16)]) -> (u8, u32) {
    changed(samples::and(), changes)
}

pub fn pair_feedback(changes: &[(usize, usize, u16)]) -> (u8, u32) {
    changed(samples::pair_feedback(), changes)
}

#[test]
fn samples_are_accepted() {
    assert_eq!(t(&[]), (0, 1));
    assert_eq!(and(&[]), (0, 1));
    assert_eq!(pair_feedback(&[]), (0, 2));
    assert_eq!(verdict(&samples::not_feedback()), (0, 1));
    assert_eq!(verdict(&samples::self_feedback()), (0, 1));
    assert_eq!(verdict(&samples::two_pairs()), (0, 1));
    assert_eq!(Answer { code: 7, place: 3 }.packed(), 7 * 4_294_967_296 + 3);
}

#[test]
fn bench_cases() {
    let named = |name: &str| verdict(&shapes::named(name).unwrap_or_default());
    assert_eq!(verdict(&vec![0; 49_152]), (2, 0));
    assert_eq!(verdict(&vec![0; 49_164]), (1, 0));
    assert_eq!(shapes::named("longest").map(|s| s.len()), Some(49_152));
    assert_eq!(named("longest").0, 0);
    assert_eq!(shapes::named("too-long").map(|s| s.len()), Some(49_164));
    assert_eq!(named("too-long"), (1, 0));
    assert_eq!(named("leaves-64").0, 0);
    assert_eq!(named("leaves-65").0, 5);
    assert_eq!(named("deepest").0, 0);
    assert_eq!(named("depth-65").0, 6);
    assert_eq!(named("nesting-3").0, 0);
    assert_eq!(named("nesting-4").0, 6);
    assert_eq!(named("many-bodies").0, 0);
}

#[test]
fn code_1_length() {
    for length in [0, 1, 11, 13, 23, 203, 205, 49_151, 49_153, 49_164, 786_432] {
        assert_eq!(verdict(&vec![1; length]), (1, 0), "{length}");
    }
    assert_eq!(verdict(&[0; 12]), (2, 0));
}

#[test]
fn code_2_header() {
    for change in [
        (0, KIND, 2),
        (0, C, 16),
        (0, C, 18),
        (0, D, 1),
        (0, NEXT, 0),
        (0, NEXT, 17),
        (0, NEXT, 2),
        (0, A, 0),
        (0, A, 17),
        (0, A, 4),
        (0, B, 0),
        (0, B, 65_535),
        (0, B, 1),
        (0, B, 7),
        (1, KIND, 18),
        (2, KIND, 41),
    ] {
        assert_eq!(t(&[change]), (2, 0), "{change:?}");
    }
}

#[test]
fn code_3_kind() {
    // A record of unknown kind, named by a lower one in a word for a part.
    assert_eq!(t(&[(5, KIND, 41)]), (3, 3));
    assert_eq!(t(&[(16, KIND, 1)]), (3, 2));
    assert_eq!(pair_feedback(&[(2, KIND, 18)]), (3, 1));
    // The same, named by a higher one in a type word only.
    let only: &[&[u16]] = &[&[1, 1, 1, 3], &[16, 0, 2], &[18], &[32, 0, 2, 4], &[64]];
    assert_eq!(judged(only), (3, 2));
}

#[test]
fn code_3_words() {
    for (change, place) in [
        ((1, B, 1), 1),
        ((9, NEXT, 10), 9),
        ((16, D, 1), 16),
        ((1, A, 0), 1),
        ((1, A, 256), 1),
        ((14, A, 256), 14),
        ((7, B, 3), 7),
        ((7, B, 0), 7),
        ((3, A, 0), 3),
        ((3, A, 5), 3),
        ((3, A, 17), 3),
        ((5, A, 3), 5),
        ((5, A, 5), 5),
        ((5, A, 0), 5),
        ((5, A, 17), 5),
        ((5, A, 7), 5),
        ((4, NEXT, 4), 4),
        ((12, NEXT, 4), 12),
        ((4, NEXT, 5), 4),
        ((4, NEXT, 17), 4),
    ] {
        assert_eq!(t(&[change]), (3, place), "{change:?}");
    }
    assert_eq!(t(&[(14, A, 300), (9, NEXT, 10)]), (3, 9));
    assert_eq!(t(&[(14, A, 255)]), (7, 13));
    assert_eq!(and(&[(6, A, 2)]), (3, 6));
    assert_eq!(and(&[(2, A, 2)]), (3, 2));
    assert_eq!(and(&[(2, B, 12)]), (3, 2));
    assert_eq!(and(&[(2, B, 4)]), (3, 2));
}

#[test]
fn code_4_naming() {
    assert_eq!(t(&[(4, NEXT, 12)]), (4, 12));
    assert_eq!(t(&[(7, NEXT, 10)]), (4, 10));
    assert_eq!(t(&[(5, B, 9)]), (4, 8));
    assert_eq!(t(&[(0, B, 3)]), (4, 2));
    assert_eq!(pair_feedback(&[(4, B, 5)]), (4, 5));
    assert_eq!(pair_feedback(&[(0, NEXT, 2)]), (4, 1));
    // Type words and the header's input type do not count as naming.
    let types: &[&[u16]] = &[&[1, 1, 2, 3], &[16, 0, 2], &[16, 0, 2], &[32, 0, 2, 4], &[64]];
    assert_eq!(judged(types), (4, 2));
    assert_eq!(judged(&[&[1, 1, 1, 2], &[16, 0, 2], &[33], &[64]]), (4, 3));
}

#[test]
fn code_5_pair_types() {
    let twice: &[&[u16]] = &[&[1, 1, 1, 4], &[16, 2, 2], &[17, 3, 1, 1], &[17, 0, 1, 1], &[33]];
    assert_eq!(judged(twice), (5, 3));
    let swapped: &[&[u16]] =
        &[&[1, 1, 1, 5], &[16, 2, 2], &[16, 3, 2], &[17, 4, 1, 2], &[17, 0, 2, 1], &[33]];
    assert_eq!(judged(swapped), (0, 1));
    let mut doubled: Vec<&[u16]> = vec![
        &[1, 1, 7, 9],
        &[16, 2, 2],
        &[17, 3, 1, 1],
        &[17, 4, 2, 2],
        &[17, 5, 3, 3],
        &[17, 6, 4, 4],
        &[17, 7, 5, 5],
        &[17, 8, 6, 6],
        &[17, 0, 7, 1],
        &[33],
    ];
    assert_eq!(judged(&doubled), (5, 8));
    doubled[8] = &[17, 0, 1, 1];
    assert_eq!(judged(&doubled), (5, 8));
    doubled[8] = &[17, 0, 2, 1];
    assert_eq!(judged(&doubled), (0, 7));
}

/// A chain of LETs: LET k at 2 + 2k, its defining part just after it, its body
/// after that.
fn lets(count: u16) -> (u8, u32) {
    let mut sheet: Vec<Vec<u16>> = vec![vec![1, 1, 1, 2], vec![16, 0, 2]];
    for k in 0..count {
        sheet.push(vec![37, 0, 3 + 2 * k, 4 + 2 * k]);
        sheet.push(vec![33]);
    }
    sheet.push(vec![33]);
    let words: Vec<&[u16]> = sheet.iter().map(Vec::as_slice).collect();
    judged(&words)
}

#[test]
fn code_6_depth_and_nesting() {
    assert_eq!(lets(63), (0, 1));
    assert_eq!(lets(64), (6, 129));
    assert_eq!(lets(200), (6, 129));
    let mut four: Vec<&[u16]> = vec![
        &[1, 1, 1, 2],
        &[16, 0, 2],
        &[38, 0, 1, 3, 10],
        &[38, 0, 1, 4, 9],
        &[38, 0, 1, 5, 8],
        &[38, 0, 1, 6, 7],
        &[33],
        &[33],
        &[33],
        &[33],
        &[33],
    ];
    assert_eq!(judged(&four), (6, 6));
    // The fourth is a LET, whose defining part does not count.
    four[5] = &[37, 0, 6, 7];
    assert_eq!(judged(&four), (0, 1));
}
