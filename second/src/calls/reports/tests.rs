//! Reports worked out by hand from the rules of a run in docs/SHEETS.md.

use super::changes::{all_changes, changes_of, Change, OutputRecord, RULES};
use super::mistakes::{found, MISTAKES};
use super::report::{opened, recorded, report, text, wrong_text, Files};
use crate::records::{bytes, read, A};
use crate::samples::{self, from_words};
use crate::simulator::run;

/// What is printed for two files.
fn printed(files: Files) -> String {
    let record = opened(files).and_then(|files| recorded(run, files));
    text(&record.map(|record| report(&record)))
}

/// What is printed for a sheet and a stimulus.
fn prints(sheet: &[u8], stimulus: &[u8]) -> String {
    printed([Some(sheet), Some(stimulus)])
}

/// The numbers of the leaves and the total of some outputs.
fn numbers(outputs: &[u8], leaves: usize) -> (Vec<usize>, usize) {
    let report = report(&OutputRecord { outputs: outputs.to_vec(), leaves });
    (report.lines.iter().map(|line| line.changes).collect(), report.total)
}

/// A sheet with another word a in one record.
fn with_word_a(sheet: &[u8], record: usize, word: u16) -> Vec<u8> {
    let mut records = read(sheet);
    records[record][A] = word;
    bytes(&records)
}

/// The input, and a delay of it that holds 1.
fn two_leaves() -> Vec<u8> {
    bytes(&from_words(&[
        &[1, 1, 1, 3],
        &[16, 2, 2],
        &[17, 0, 1, 1],
        &[34, 0, 4, 5],
        &[33],
        &[40, 0, 1, 6, 7],
        &[64, 0, 1],
        &[33],
    ]))
}

/// T on 1 2 1 puts out 2 1 1; on 2 0 1 2 it puts out 2 2 0 0.
#[test]
fn t() {
    let t = samples::t();
    assert_eq!(prints(&t, &[1, 2, 1]), "leaf 0: 1\ntotal 1\n");
    assert_eq!(prints(&t, &[2, 0, 1, 2]), "leaf 0: 1\ntotal 1\n");
    // It flips after each 1: 2 1 2 1 1 1 2.
    assert_eq!(prints(&t, &[1, 1, 1, 2, 2, 1, 2]), "leaf 0: 4\ntotal 4\n");
    assert_eq!(prints(&t, &[2; 100]), "leaf 0: 0\ntotal 0\n");
    assert_eq!(prints(&t, &[1; 101]), "leaf 0: 100\ntotal 100\n");
    // After one flip its delay, leaf 4, holds 1: 1 1 2.
    let flipped = with_word_a(&t, 4, 1);
    assert_eq!(prints(&flipped, &[2, 1, 1]), "leaf 0: 1\ntotal 1\n");
}

/// On 2 2 1 1 1: 2 1, 2 2, 1 2, 1 1, 1 1. On 1 2 0: 1 1, 2 1, 0 2. On 0 1 1 0
/// 0: 0 1, 1 0, 1 1, 0 1, 0 0.
#[test]
fn two_leaves_of_a_delay() {
    let sheet = two_leaves();
    assert_eq!(prints(&sheet, &[2, 2, 1, 1, 1]), "leaf 0: 1\nleaf 1: 2\ntotal 3\n");
    assert_eq!(prints(&sheet, &[1, 2, 0]), "leaf 0: 2\nleaf 1: 1\ntotal 3\n");
    assert_eq!(prints(&sheet, &[0, 1, 1, 0, 0]), "leaf 0: 2\nleaf 1: 3\ntotal 5\n");
}

/// AND puts out 2 0 1 2 2 0: two leaves of input, and one of output.
#[test]
fn fewer_leaves_than_the_input() {
    let stimulus = [2, 0, 1, 0, 1, 1, 1, 2, 0, 2, 0, 0];
    assert_eq!(prints(&samples::and(), &stimulus), "leaf 0: 4\ntotal 4\n");
}

/// None and one cycle, and several in which nothing changes.
#[test]
fn zeros() {
    for stimulus in [&[][..], &[0], &[1], &[2]] {
        assert_eq!(prints(&samples::t(), stimulus), "leaf 0: 0\ntotal 0\n");
        assert_eq!(prints(&two_leaves(), stimulus), "leaf 0: 0\nleaf 1: 0\ntotal 0\n");
    }
    // The pair feedback puts out 1 1 in every cycle, a feedback of itself 0.
    assert_eq!(prints(&samples::pair_feedback(), &[0, 1, 2]), "leaf 0: 0\nleaf 1: 0\ntotal 0\n");
    assert_eq!(prints(&samples::self_feedback(), &[0, 1, 2]), "leaf 0: 0\ntotal 0\n");
    assert_eq!(prints(&samples::and(), &[]), "leaf 0: 0\ntotal 0\n");
    assert_eq!(numbers(&[], 64), (vec![0; 64], 0));
    assert_eq!(numbers(&[7; 64], 64), (vec![0; 64], 0));
    let each: Vec<u8> = (0..64).collect();
    assert_eq!(numbers(&each, 64), (vec![0; 64], 0));
}

/// The pairs of cycle and leaf, the first cycle first and in it the lowest leaf.
#[test]
fn pairs_of_cycle_and_leaf() {
    let record = OutputRecord { outputs: vec![1, 2, 0, 1, 3, 0, 0, 3, 9, 1, 2, 9], leaves: 3 };
    let at = |cycle, leaf| Change { cycle, leaf };
    let changes = [at(1, 1), at(2, 0), at(2, 2), at(3, 0), at(3, 1)];
    assert_eq!(all_changes(&RULES, &record), changes);
    assert_eq!((0..3).map(|leaf| changes_of(&RULES, &record, leaf)).collect::<Vec<_>>(), [2, 2, 1]);
    assert_eq!(numbers(&record.outputs, 3), (vec![2, 2, 1], 5));
    // The same bytes, cut into other cycles.
    assert_eq!(numbers(&record.outputs, 1), (vec![10], 10));
    assert_eq!(numbers(&record.outputs, 12), (vec![0; 12], 0));
    assert_eq!(numbers(&record.outputs, 6), (vec![1, 1, 1, 0, 1, 1], 5));
}

/// Every byte is another value, 0 and 255 too.
#[test]
fn each_value_counts() {
    for before in 0..=255 {
        for now in 0..=255 {
            let changes = usize::from(before != now);
            assert_eq!(numbers(&[before, now], 1), (vec![changes], changes));
        }
    }
}

/// 65,535 cycles of 64 leaves that change in each, and of 64 of which one does.
#[test]
fn longest_outputs() {
    let all: Vec<u8> = (0..65_535).flat_map(|cycle| [(cycle % 2) as u8; 64]).collect();
    assert_eq!(numbers(&all, 64), (vec![65_534; 64], 4_194_176));
    let last = all.iter().enumerate().map(|(place, &byte)| if place % 64 == 63 { byte } else { 5 });
    let (lines, total) = numbers(&last.collect::<Vec<u8>>(), 64);
    assert_eq!((&lines[..63], lines[63], total), (&[0; 63][..], 65_534, 65_534));
}

/// Code 12 before all else, then the run's.
#[test]
fn refusals() {
    let (t, and) = (samples::t(), samples::and());
    let (sheet, stimulus) = (Some(&t[..]), Some(&[1, 2, 1][..]));
    assert_eq!(printed([None, None]), "refused 12 at 1\n");
    assert_eq!(printed([None, stimulus]), "refused 12 at 1\n");
    assert_eq!(printed([None, Some(&[9])]), "refused 12 at 1\n");
    assert_eq!(printed([sheet, None]), "refused 12 at 2\n");
    assert_eq!(printed([Some(&[]), None]), "refused 12 at 2\n");
    assert_eq!(prints(&[], &[]), "refused 1 at 0\n");
    assert_eq!(prints(&t[1..], &[1; 65_536]), "refused 1 at 0\n");
    assert_eq!(prints(&with_word_a(&t, 0, 0), &[3]), "refused 2 at 0\n");
    assert_eq!(prints(&with_word_a(&t, 4, 256), &[3]), "refused 3 at 4\n");
    assert_eq!(prints(&with_word_a(&t, 16, 2), &[3]), "refused 7 at 16\n");
    assert_eq!(prints(&t, &[1; 65_536]), "refused 8 at 0\n");
    assert_eq!(prints(&and, &[1, 3, 1]), "refused 8 at 0\n");
    assert_eq!(prints(&t, &[1, 2, 3]), "refused 9 at 2\n");
    assert_eq!(prints(&and, &[1, 1, 1, 3]), "refused 9 at 3\n");
}

/// The law of every text that the program prints.
#[test]
fn texts() {
    for right in [
        "refused 9 at 2\n",
        "leaf 0: 1\ntotal 1\n",
        "leaf 0: 0\nleaf 1: 0\ntotal 0\n",
        "leaf 0: 65534\nleaf 1: 65534\ntotal 131068\n",
    ] {
        assert_eq!(wrong_text(right), None);
    }
    let sums = wrong_text("leaf 0: 1\nleaf 1: 2\ntotal 2\n");
    assert_eq!(sums.as_deref(), Some("the lines sum to 3, the total is 2"));
    for wrong in [
        "",
        "total\n",
        "leaf 0: 1\n",
        "leaf 1: 1\ntotal 1\n",
        "leaf 0: 1\nleaf 2: 1\ntotal 2\n",
        "leaf 0:1\ntotal 1\n",
        "total 1\nleaf 0: 1\n",
        "leaf 0: 1\ntotal one\n",
        "leaf 0: -1\ntotal -1\n",
        "type 1\ncycles 0\n",
    ] {
        assert_eq!(wrong_text(wrong).as_deref(), Some("neither a refusal nor a report"), "{wrong}");
    }
}

/// Each mistake shows on some files; that of the file written shows in no text.
#[test]
fn mistakes_show() {
    let (t, and, two) = (samples::t(), samples::and(), two_leaves());
    let wide =
        from_words(&[&[1, 1, 1, 3], &[16, 2, 2], &[17, 0, 1, 1], &[34, 0, 4, 5], &[33], &[33]]);
    let wide = bytes(&wide);
    // An undecided IF of which both branches are 1, or of which they differ.
    let decided = bytes(&from_words(&[
        &[1, 1, 1, 2],
        &[16, 0, 2],
        &[39, 0, 3, 5, 7, 4],
        &[33],
        &[49, 0, 1, 1],
        &[32, 0, 1, 6],
        &[64, 0, 1],
        &[32, 0, 1, 8],
        &[64, 0, 1],
    ]));
    let (ones, turns) = ([1; 300], [1, 2].repeat(32_767));
    let cases: [Files; 15] = [
        [Some(&t), Some(&[1, 2, 1])],
        [Some(&t), Some(&ones)],
        [Some(&t), Some(&[])],
        [Some(&two), Some(&[2, 2, 1, 1, 1])],
        [Some(&two), Some(&[1, 2, 0])],
        [Some(&two), Some(&[0, 1, 1, 0, 0])],
        [Some(&two), Some(&[1, 1, 1])],
        [Some(&two), Some(&[])],
        [Some(&and), Some(&[2, 0, 1, 0, 1, 1])],
        [Some(&wide), Some(&turns)],
        [Some(&decided), Some(&[1, 0, 2])],
        [Some(&t[1..]), Some(&[1])],
        [None, None],
        [Some(&t), None],
        [Some(&t[1..]), None],
    ];
    for &(name, mistake) in MISTAKES.iter().filter(|(name, _)| *name != "next-written") {
        let shows = cases.iter().any(|&files| text(&found(files, Some(mistake))) != printed(files));
        assert!(shows, "{name}");
    }
}
