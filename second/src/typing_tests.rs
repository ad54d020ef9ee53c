//! Type rules: verdicts worked out by hand from docs/SHEETS.md, "Type rules".

use crate::records::{A, B, KIND};
use crate::samples;
use crate::verdict::judge;
use crate::verdict_tests::{and, changed, judged, pair_feedback, t};

#[test]
fn code_7_names_and_leaves() {
    assert_eq!(t(&[(6, A, 2)]), (7, 6));
    assert_eq!(t(&[(9, A, 65_535)]), (7, 9));
    assert_eq!(t(&[(16, A, 2)]), (7, 16));
    assert_eq!(t(&[(16, A, 1)]), (0, 1));
    assert_eq!(t(&[(12, A, 3)]), (7, 11));
    assert_eq!(t(&[(12, A, 0)]), (0, 1));
    assert_eq!(t(&[(4, A, 3)]), (7, 3));
    // The delay's part comes before the delay.
    assert_eq!(t(&[(4, A, 3), (14, A, 3)]), (7, 13));
    assert_eq!(and(&[(8, A, 2)]), (7, 8));
    assert_eq!(and(&[(9, A, 3), (11, A, 3)]), (7, 8));
    let many: &[&[u16]] = &[&[1, 1, 1, 2], &[16, 0, 2], &[32, 0, 1, 3], &[64, 4], &[64]];
    assert_eq!(judged(many), (7, 2));
    let order: &[&[u16]] = &[
        &[1, 1, 1, 4],
        &[16, 2, 2],
        &[16, 3, 3],
        &[17, 0, 1, 2],
        &[32, 0, 3, 5],
        &[64, 6, 2],
        &[64, 0, 3],
    ];
    assert_eq!(judged(order), (0, 3));
    let mut reversed = order.to_vec();
    reversed[3] = &[17, 0, 2, 1];
    assert_eq!(judged(&reversed), (7, 4));
}

#[test]
fn code_7_parts() {
    // Record 8 names the input, which is flat.
    assert_eq!(pair_feedback(&[(8, A, 1)]), (7, 7));
    assert_eq!(pair_feedback(&[(7, KIND, 36)]), (0, 2));
    assert_eq!(judged(&[&[1, 1, 1, 2], &[16, 0, 2], &[34, 0, 3, 4], &[33], &[33]]), (7, 2));
    let mut feedback: Vec<&[u16]> =
        vec![&[1, 1, 1, 3], &[16, 2, 2], &[17, 0, 1, 1], &[38, 0, 2, 4, 5], &[33, 0, 1], &[33]];
    assert_eq!(judged(&feedback), (7, 3));
    // The body comes before the feedback's own rule.
    feedback[5] = &[33, 0, 2];
    assert_eq!(judged(&feedback), (7, 5));
    // A type of the same shape is another type.
    let delay: &[&[u16]] =
        &[&[1, 1, 1, 3], &[16, 2, 2], &[16, 0, 2], &[40, 0, 2, 4, 5], &[64, 0, 1], &[33]];
    assert_eq!(judged(delay), (7, 3));
    // A LET's name is not in scope in its defining part.
    assert_eq!(judged(&[&[1, 1, 1, 2], &[16, 0, 2], &[37, 0, 3, 4], &[33, 0, 1], &[33]]), (7, 3));
    assert_eq!(judged(&[&[1, 1, 1, 2], &[16, 0, 2], &[37, 0, 3, 4], &[33], &[33, 0, 1]]), (0, 1));
    assert_eq!(
        judged(&[&[1, 1, 1, 2], &[16, 0, 2], &[38, 0, 1, 3, 4], &[33, 0, 1], &[33, 0, 1]]),
        (0, 1)
    );
}

#[test]
fn code_7_choice() {
    let with = |pattern: &[u16], tested: u16, then: u16, other: u16| {
        let parts = [vec![33, 0, tested], vec![33, 0, then], vec![33, 0, other]];
        judged(&[
            &[1, 1, 1, 3],
            &[16, 2, 2],
            &[16, 0, 2],
            &[39, 0, 4, 6, 7, 5],
            &parts[0],
            pattern,
            &parts[1],
            &parts[2],
        ])
    };
    assert_eq!(with(&[49, 0, 1, 2], 0, 0, 0), (0, 1));
    assert_eq!(with(&[48, 0, 1], 0, 0, 0), (0, 1));
    assert_eq!(with(&[49, 0, 2, 1], 0, 0, 0), (7, 3));
    assert_eq!(with(&[48, 0, 2], 0, 9, 0), (7, 3));
    assert_eq!(with(&[48, 0, 2], 9, 9, 0), (7, 4));
    assert_eq!(with(&[48, 0, 1], 0, 9, 9), (7, 6));
    assert_eq!(with(&[48, 0, 1], 0, 0, 9), (7, 7));
    // Branches of two types of one shape.
    let branches: &[&[u16]] = &[
        &[1, 1, 1, 3],
        &[16, 2, 2],
        &[16, 0, 2],
        &[39, 0, 4, 6, 7, 5],
        &[33],
        &[48, 0, 1],
        &[33],
        &[32, 0, 2, 8],
        &[64],
    ];
    assert_eq!(judged(branches), (7, 3));
}

#[test]
fn code_7_patterns() {
    // A later alternative, and a part of a pair pattern, of another type.
    assert_eq!(changed(samples::two_pairs(), &[(10, KIND, 48), (10, A, 2), (10, B, 0)]), (7, 3));
    assert_eq!(changed(samples::two_pairs(), &[(10, KIND, 48), (10, B, 0)]), (0, 1));
    assert_eq!(changed(samples::two_pairs(), &[(0, A, 1)]), (7, 3));
    // A whole-type pattern on a pair type; chained parts of a pair pattern.
    let whole: &[&[u16]] = &[
        &[1, 1, 2, 3],
        &[16, 2, 2],
        &[17, 0, 1, 1],
        &[39, 0, 4, 5, 6, 7],
        &[33],
        &[33],
        &[33],
        &[48, 0, 2],
    ];
    assert_eq!(judged(whole), (0, 2));
    let mut chained = whole.to_vec();
    chained[7] = &[50, 0, 8, 10];
    chained.extend([&[49, 9, 1, 1][..], &[49, 0, 1, 2], &[48, 0, 1]]);
    assert_eq!(judged(&chained), (0, 2));
    chained[9] = &[48, 0, 2];
    assert_eq!(judged(&chained), (7, 3));
}

#[test]
fn types_and_widths() {
    let Ok(found) = judge(&samples::and()) else { panic!("refused") };
    assert_eq!(found.output, 1);
    assert_eq!(found.types, [0, 1, 2, 1, 2, 2, 1, 1, 1, 0, 1, 0]);
    assert_eq!(found.widths, [0, 1, 2, 1, 2, 2, 1, 1, 1, 0, 1, 0]);
}
