//! Patterns that several IFs share: verdicts and runs worked out by hand.

use crate::calls::checks::mistakes::{self, CheckMistake};
use crate::generate::circuits::circuit;
use crate::generate::network::network;
use crate::generate::small::small;
use crate::layout::layout;
use crate::random::Random;
use crate::records::{bytes, C, D, NEXT};
use crate::samples::from_words;
use crate::simulator::{run, Call};
use crate::structure::choices_on;
use crate::verdict::check;
use crate::verdict_tests::{changed, judged};

/// IF x is 1 THEN (IF x is 1 THEN 2 ELSE x) ELSE x; the pattern is record 9,
/// and 10 is a second alternative of it.
const SHARED: [&[u16]; 12] = [
    &[1, 1, 1, 2],
    &[16, 0, 3],
    &[39, 0, 3, 4, 11, 9],
    &[33],
    &[39, 0, 5, 6, 8, 9],
    &[33],
    &[32, 0, 1, 7],
    &[64, 0, 2],
    &[33],
    &[49, 10, 1, 1],
    &[49, 0, 1, 3],
    &[33],
];

fn shared(changes: &[(usize, usize, u16)]) -> (u8, u32) {
    changed(bytes(&from_words(&SHARED)), changes)
}

#[test]
fn ds_share_a_pattern() {
    assert_eq!(shared(&[]), (0, 1));
    // A tail of the chain, named by next too.
    assert_eq!(shared(&[(4, D, 10)]), (4, 10));
    assert_eq!(shared(&[(2, D, 10)]), (4, 10));
    // Without the next it is a pattern of its own.
    assert_eq!(shared(&[(4, D, 10), (9, NEXT, 0)]), (0, 1));
    // Both by the tail: the head is named by nothing, the tail by three words.
    assert_eq!(shared(&[(2, D, 10), (4, D, 10)]), (4, 9));
    assert_eq!(shared(&[(9, NEXT, 0)]), (4, 10));
}

/// IF x is .. THEN (IF x is .. THEN x ELSE x) ELSE x on pairs of bits; what
/// the words d of the two IFs are, and the patterns from record 10 on.
fn of_pairs(ds: [u16; 2], patterns: &[&[u16]]) -> (u8, u32) {
    let (one, two) = ([39, 0, 4, 5, 9, ds[0]], [39, 0, 6, 7, 8, ds[1]]);
    let mut words: Vec<&[u16]> =
        vec![&[1, 1, 2, 3], &[16, 2, 2], &[17, 0, 1, 1], &one, &[33], &two];
    words.extend([&[33][..], &[33], &[33], &[33]]);
    words.extend(patterns);
    judged(&words)
}

#[test]
fn parts_of_pair_patterns_are_not_shared() {
    // Record 10 is (1, 2), and 11 and 12 its parts.
    let pair: [&[u16]; 3] = [&[50, 0, 11, 12], &[49, 0, 1, 1], &[49, 0, 1, 2]];
    assert_eq!(of_pairs([10, 10], &pair), (0, 2));
    assert_eq!(of_pairs([10, 11], &pair), (4, 11));
    assert_eq!(of_pairs([10, 12], &pair), (4, 12));
    assert_eq!(of_pairs([10, 10], &[&[50, 0, 11, 11], &[49, 0, 1, 1]]), (4, 11));
    // Two pair patterns, both with 12 for a part.
    let two: [&[u16]; 5] =
        [&[50, 0, 12, 13], &[50, 0, 12, 14], &[48, 0, 1], &[48, 0, 1], &[48, 0, 1]];
    assert_eq!(of_pairs([10, 11], &two), (4, 12));
    // A part that is the next of the other part.
    let next: [&[u16]; 3] = [&[50, 0, 11, 12], &[48, 12, 1], &[48, 0, 1]];
    assert_eq!(of_pairs([10, 10], &next), (4, 12));
    // Two nexts: 10 and 11 both go on with 12.
    let nexts: [&[u16]; 3] = [&[48, 12, 2], &[48, 12, 2], &[48, 0, 2]];
    assert_eq!(of_pairs([10, 11], &nexts), (4, 12));
}

#[test]
fn expressions_and_leaves_are_not_shared() {
    // The branches of the outer IF are one name; the branches of the inner.
    assert_eq!(shared(&[(2, C, 8)]), (4, 8));
    assert_eq!(shared(&[(4, C, 6)]), (4, 6));
    // Two constants on one leaf.
    let leaf: &[&[u16]] = &[
        &[1, 1, 1, 3],
        &[16, 2, 2],
        &[17, 0, 1, 1],
        &[34, 0, 4, 5],
        &[32, 0, 1, 6],
        &[32, 0, 1, 6],
        &[64, 0, 1],
    ];
    assert_eq!(judged(leaf), (4, 6));
}

#[test]
fn each_choice_judges_by_its_own_type() {
    // The outer IF tests the input, of type 1, the inner a constant of type 2.
    let mut words: Vec<&[u16]> = vec![
        &[1, 1, 1, 3],
        &[16, 2, 2],
        &[16, 0, 2],
        &[39, 0, 4, 5, 10, 11],
        &[33],
        &[39, 0, 6, 8, 9, 11],
        &[32, 0, 2, 7],
        &[64, 0, 1],
        &[33],
        &[33],
        &[33],
        &[48, 0, 1],
    ];
    assert_eq!(judged(&words), (7, 5));
    // Of the type of the inner one: the outer IF is judged before its parts b and c.
    words[11] = &[48, 0, 2];
    assert_eq!(judged(&words), (7, 3));
    // Now the inner one is in the tested part of the outer one, and goes before.
    words[3] = &[39, 0, 5, 4, 10, 11];
    words[11] = &[48, 0, 1];
    assert_eq!(judged(&words), (7, 5));
}

#[test]
fn runs_share_a_pattern() {
    let sheet = bytes(&from_words(&SHARED));
    let call = Call { sheet: &sheet, stimulus: &[0, 1, 2, 3], output_length: 4, next_length: 144 };
    let outcome = run(&call);
    // On 0 the inner IF is undecided between 2 and 0, and so 0.
    assert_eq!(outcome.outputs, Some(vec![0, 2, 2, 2]));
}

#[test]
fn generators_share_patterns() {
    let mut random = Random::new(31);
    for make in [circuit, small, network] {
        let (mut shared, mut refused) = (0, 0);
        for _ in 0..600 {
            let records = layout(&make(&mut random), &mut random);
            let several = choices_on(&records).into_iter().any(|count| count > 1);
            shared += usize::from(several);
            let sheet = bytes(&records);
            assert_eq!(check(&sheet).code, 0);
            refused +=
                usize::from(mistakes::check(&sheet, Some(CheckMistake::NoSharing)).code == 4);
        }
        assert!(shared >= 60, "{shared} of 600");
        assert_eq!(shared, refused);
    }
}

#[test]
fn mistakes_of_sharing() {
    let sheet = |changes: &[(usize, usize, u16)]| {
        let mut records = from_words(&SHARED);
        changes.iter().for_each(|&(number, word, value)| records[number][word] = value);
        bytes(&records)
    };
    let given = |name: &str, changes: &[(usize, usize, u16)]| {
        let answer = mistakes::check(&sheet(changes), mistakes::named(name));
        (answer.code, answer.place)
    };
    assert_eq!(given("no-sharing", &[]), (4, 9));
    assert_eq!(given("sharing-by-next", &[(4, D, 10)]), (0, 1));
    assert_eq!(given("sharing-by-pair-pattern", &[(4, D, 10)]), (4, 10));
    assert_eq!(given("sharing-of-expressions", &[(4, C, 5)]), (4, 8));
}
