//! Replays worked out by hand from the rules of a run in docs/SHEETS.md.

use super::cases::bit_64_times;
use super::line::{call_on, line};
use super::mistakes::{self, MISTAKES};
use super::replay::{replay, Call, Finding, Outcome, Place};
use crate::answers::Answer;
use crate::records::{bytes, read, A};
use crate::samples::{self, from_words};

/// A replay with a next slice of the sheet's length.
fn replayed(sheet: &[u8], stimulus: &[u8], recorded: &[u8]) -> Outcome {
    replay(&Call { sheet, stimulus, recorded, next_length: sheet.len() })
}

/// What is found of a call that nothing refuses: the numbers beside 0 at 0. A
/// record that differs leaves the next slice as it is, one that agrees does not.
fn found(sheet: &[u8], stimulus: &[u8], recorded: &[u8]) -> [u64; 3] {
    let outcome = replayed(sheet, stimulus, recorded);
    let numbers = outcome.numbers();
    assert_eq!(outcome.answer, Answer { code: 0, place: 0 });
    assert_eq!(outcome.next.is_some(), numbers[0] == 0);
    numbers
}

/// The code and place of a refusal.
fn refused(sheet: &[u8], stimulus: &[u8], recorded: &[u8], next_length: usize) -> (u8, u32) {
    let outcome = replay(&Call { sheet, stimulus, recorded, next_length });
    assert_eq!((outcome.found, &outcome.next, outcome.numbers()), (None, &None, [0; 3]));
    (outcome.answer.code, outcome.answer.place)
}

/// A sheet with another word a in one record.
fn with_word_a(sheet: &[u8], record: usize, word: u16) -> Vec<u8> {
    let mut records = read(sheet);
    records[record][A] = word;
    bytes(&records)
}

/// T on 1 2 1 puts out 2 1 1, and its delay is back at 2.
#[test]
fn t() {
    let t = samples::t();
    assert_eq!(found(&t, &[1, 2, 1], &[2, 1, 1]), [0, 3, 0]);
    assert_eq!(replayed(&t, &[1, 2, 1], &[2, 1, 1]).next, Some(t.clone()));
    // Every other byte at each place, those above 2 and 0 too.
    for cycle in 0..3 {
        for byte in 0..=255 {
            let mut recorded = [2, 1, 1];
            recorded[cycle] = byte;
            let expected = if byte == [2, 1, 1][cycle] { [0, 3, 0] } else { [1, cycle as u64, 0] };
            assert_eq!(found(&t, &[1, 2, 1], &recorded), expected);
        }
    }
    // The first of several.
    assert_eq!(found(&t, &[1, 2, 1], &[2, 2, 2]), [1, 1, 0]);
    assert_eq!(found(&t, &[1, 2, 1], &[1, 2, 2]), [1, 0, 0]);
}

/// After one flip the delay, leaf 4, holds 1; an undefined input leaves it 0.
#[test]
fn next_sheets() {
    let t = samples::t();
    assert_eq!(found(&t, &[1], &[2]), [0, 1, 0]);
    assert_eq!(replayed(&t, &[1], &[2]).next, Some(with_word_a(&t, 4, 1)));
    assert_eq!(found(&t, &[2, 0, 1, 2], &[2, 2, 0, 0]), [0, 4, 0]);
    assert_eq!(replayed(&t, &[2, 0, 1, 2], &[2, 2, 0, 0]).next, Some(with_word_a(&t, 4, 0)));
    // From the sheet after one flip: 1, and 2 after the second.
    let flipped = with_word_a(&t, 4, 1);
    assert_eq!(found(&flipped, &[1, 2], &[1, 2]), [0, 2, 0]);
    assert_eq!(replayed(&flipped, &[1, 2], &[1, 2]).next, Some(t.clone()));
    assert_eq!(found(&t, &[1, 2], &[1, 2]), [1, 0, 0]);
}

/// 0 is a value like any other.
#[test]
fn undefined_bytes() {
    let t = samples::t();
    assert_eq!(found(&t, &[2, 0, 1, 2], &[2, 0, 0, 0]), [1, 1, 0]);
    assert_eq!(found(&t, &[2, 0, 1, 2], &[2, 2, 1, 0]), [1, 2, 0]);
    assert_eq!(found(&t, &[2, 0, 1, 2], &[2, 2, 0, 3]), [1, 3, 0]);
    assert_eq!(found(&samples::self_feedback(), &[1, 2], &[0, 0]), [0, 2, 0]);
    assert_eq!(found(&samples::self_feedback(), &[1, 2], &[0, 1]), [1, 1, 0]);
}

/// The pair feedback puts out 1 1 in every cycle.
#[test]
fn two_leaves() {
    let pair = samples::pair_feedback();
    let at = |recorded: &[u8]| found(&pair, &[0, 1, 2], recorded);
    assert_eq!(at(&[1, 1, 1, 1, 1, 1]), [0, 3, 0]);
    assert_eq!(at(&[1, 1, 1, 1, 1, 2]), [1, 2, 1]);
    assert_eq!(at(&[1, 1, 1, 1, 0, 1]), [1, 2, 0]);
    assert_eq!(at(&[1, 9, 1, 1, 1, 1]), [1, 0, 1]);
    assert_eq!(at(&[2, 2, 1, 1, 1, 1]), [1, 0, 0]);
    // The first cycle goes before the lowest leaf.
    assert_eq!(at(&[1, 1, 1, 2, 2, 1]), [1, 1, 1]);
    assert_eq!(at(&[1, 2, 2, 2, 2, 2]), [1, 0, 1]);
    // As many bytes as the run's, one cycle's leaves in the other order.
    let and = samples::and();
    assert_eq!(found(&and, &[2, 0, 1, 0, 1, 1], &[2, 0, 1]), [0, 3, 0]);
    assert_eq!(found(&and, &[2, 0, 1, 0, 1, 1], &[0, 2, 1]), [1, 0, 0]);
    assert_eq!(found(&and, &[2, 0, 1, 0, 1, 1], &[2, 0, 2]), [1, 2, 0]);
}

/// Each input byte 64 times, up to the longest record.
#[test]
fn longest_record() {
    let sheet = bit_64_times();
    let stimulus: Vec<u8> = (0..65_535).map(|cycle| (cycle % 3) as u8).collect();
    let mut recorded: Vec<u8> = stimulus.iter().flat_map(|&byte| [byte; 64]).collect();
    assert_eq!(recorded.len(), 4_194_240);
    assert_eq!(found(&sheet, &stimulus, &recorded), [0, 65_535, 0]);
    recorded[4_194_239] = 3;
    assert_eq!(found(&sheet, &stimulus, &recorded), [1, 65_534, 63]);
    recorded[64 * 300 + 17] = 255;
    assert_eq!(found(&sheet, &stimulus, &recorded), [1, 300, 17]);
    recorded[64 * 256 + 40] ^= 1;
    recorded[64 * 256 + 41] ^= 1;
    assert_eq!(found(&sheet, &stimulus, &recorded), [1, 256, 40]);
}

#[test]
fn no_cycles() {
    let flipped = with_word_a(&samples::t(), 4, 1);
    for sheet in [samples::t(), flipped, samples::and()] {
        assert_eq!(found(&sheet, &[], &[]), [0, 0, 0]);
        assert_eq!(replayed(&sheet, &[], &[]).next, Some(sheet.clone()));
        for recorded in [&[0][..], &[1], &[0; 64]] {
            assert_eq!(refused(&sheet, &[], recorded, sheet.len()), (17, 0));
            assert_eq!(refused(&sheet, &[], recorded, 0), (17, 0));
        }
        assert_eq!(refused(&sheet, &[], &[], sheet.len() + 1), (11, sheet.len() as u32));
        assert_eq!(refused(&sheet, &[], &[], 0), (11, sheet.len() as u32));
    }
}

/// 17 before 11, and both after 9; 11 whether the record agrees or not.
#[test]
fn refusals() {
    let (t, and, pair) = (samples::t(), samples::and(), samples::pair_feedback());
    for recorded in [&[][..], &[2], &[2, 1], &[2, 1, 1, 1], &[0; 1000]] {
        for next_length in [0, 203, 204, 205] {
            assert_eq!(refused(&t, &[1, 2, 1], recorded, next_length), (17, 3));
            assert_eq!(refused(&t, &[1, 2, 3], recorded, next_length), (9, 2));
            assert_eq!(refused(&t, &[3; 65_536], recorded, next_length), (8, 0));
            assert_eq!(refused(&and, &[1, 1, 1], recorded, next_length), (8, 0));
            assert_eq!(refused(&t[1..], &[], recorded, next_length), (1, 0));
        }
    }
    for recorded in [[2, 1, 1], [1, 1, 1], [0, 9, 255]] {
        for next_length in [0, 203, 205, 49_152] {
            assert_eq!(refused(&t, &[1, 2, 1], &recorded, next_length), (11, 204));
        }
    }
    // The place of 17 counts the leaves of each cycle.
    assert_eq!(refused(&pair, &[1, 2, 1], &[1, 1, 1], pair.len()), (17, 6));
    assert_eq!(refused(&bit_64_times(), &[1, 2], &[1, 2], 0), (17, 128));
    // The sheet first.
    let no_root = with_word_a(&t, 0, 0);
    assert_eq!(refused(&no_root, &[3], &[], 0), (2, 0));
    let mistyped = with_word_a(&t, 16, 2);
    assert_eq!(refused(&mistyped, &[3], &[], 0), (7, 16));
}

#[test]
fn lines() {
    let t = samples::t();
    let printed = |files: [Option<&[u8]>; 3]| match call_on(files) {
        Ok(call) => line(&replay(&call)),
        Err(answer) => line(&Outcome::refused(answer)),
    };
    let (sheet, stimulus) = (Some(&t[..]), Some(&[1, 2, 1][..]));
    assert_eq!(printed([sheet, stimulus, Some(&[2, 1, 1])]), "agrees 3\n");
    assert_eq!(printed([sheet, Some(&[]), Some(&[])]), "agrees 0\n");
    assert_eq!(printed([sheet, stimulus, Some(&[2, 1, 2])]), "cycle 2 leaf 0\n");
    assert_eq!(printed([sheet, stimulus, Some(&[2, 1])]), "refused 17 at 3\n");
    assert_eq!(printed([sheet, Some(&[1, 3]), Some(&[2, 1])]), "refused 9 at 1\n");
    // The first that can't be opened, before what is wrong with the others.
    assert_eq!(printed([None, None, None]), "refused 12 at 1\n");
    assert_eq!(printed([None, stimulus, Some(&[])]), "refused 12 at 1\n");
    assert_eq!(printed([sheet, None, None]), "refused 12 at 2\n");
    assert_eq!(printed([Some(&[]), None, Some(&[])]), "refused 12 at 2\n");
    assert_eq!(printed([sheet, stimulus, None]), "refused 12 at 3\n");
    assert_eq!(printed([Some(&[]), Some(&[9]), None]), "refused 12 at 3\n");
    let differs = Outcome {
        answer: Answer::accepted(0),
        found: Some(Finding::Differs(Place { cycle: 65_534, leaf: 63 })),
        next: None,
    };
    assert_eq!(line(&differs), "cycle 65534 leaf 63\n");
}

/// The input, a delay of it that holds 1, and the input again.
fn three_leaves() -> Vec<u8> {
    bytes(&from_words(&[
        &[1, 1, 1, 4],
        &[16, 2, 2],
        &[17, 3, 1, 1],
        &[17, 0, 1, 2],
        &[34, 0, 5, 6],
        &[33],
        &[34, 0, 7, 10],
        &[40, 0, 1, 8, 9],
        &[64, 0, 1],
        &[33],
        &[33],
    ]))
}

/// On 2 0 1: 2 1 2, 0 2 0, 1 0 1, after which the delay holds 1 again.
#[test]
fn three_leaves_of_a_delay() {
    let sheet = three_leaves();
    let recorded = [2, 1, 2, 0, 2, 0, 1, 0, 1];
    assert_eq!(found(&sheet, &[2, 0, 1], &recorded), [0, 3, 0]);
    assert_eq!(replayed(&sheet, &[2, 0, 1], &recorded).next, Some(sheet.clone()));
    for at in 0..9 {
        let mut other = recorded;
        other[at] = (other[at] + 1) % 3;
        assert_eq!(found(&sheet, &[2, 0, 1], &other), [1, at as u64 / 3, at as u64 % 3]);
    }
}

/// Each mistake shows on some call.
#[test]
fn mistakes_show() {
    let (sheet, t) = (three_leaves(), samples::t());
    let length = sheet.len();
    let calls: [(&[u8], &[u8], &[u8], usize); 17] = [
        (&sheet, &[2, 0, 1], &[2, 1, 2, 0, 2, 0, 1, 0, 1], length),
        (&sheet, &[2, 0, 1], &[2, 1, 2, 0, 2, 1, 2, 0, 2], length),
        (&sheet, &[2, 0, 1], &[2, 1, 2, 0, 2, 1, 2, 0, 2], 0),
        (&sheet, &[2, 0, 1], &[2, 1, 2, 0, 1, 1, 1, 0, 1], length),
        (&sheet, &[2, 0, 1], &[2, 1, 0, 0, 2, 0, 1, 0, 1], length),
        (&sheet, &[2, 0, 1], &[2, 1, 2, 0, 2, 0, 1, 2, 1], length),
        (&sheet, &[2, 0, 1], &[2, 1, 2, 0, 2, 0, 1, 0, 3], length),
        (&sheet, &[2, 0, 1], &[2, 1, 2, 0, 2, 0, 1, 0, 1, 0], length),
        (&sheet, &[2, 0, 1], &[2, 1, 2], length),
        (&sheet, &[2, 0, 1], &[2, 1, 2], 0),
        (&sheet, &[2, 0, 1], &[2, 1, 2, 0, 2, 0, 1, 0, 1], 0),
        (&sheet, &[2], &[2, 1, 2], length),
        (&sheet, &[2, 3, 1], &[2, 1, 2], length),
        (&t, &[3; 65_536], &[], 0),
        (&t, &[], &[], 204),
        (&t, &[], &[1], 204),
        (&t[1..], &[1], &[], 203),
    ];
    for (name, mistake) in MISTAKES {
        let shows = calls.iter().any(|&(sheet, stimulus, recorded, next_length)| {
            let call = Call { sheet, stimulus, recorded, next_length };
            replay(&call) != mistakes::replay(&call, Some(mistake))
        });
        assert!(shows, "{name}");
    }
}
