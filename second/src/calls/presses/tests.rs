//! Presses worked out by hand from the rules of one cycle in docs/SHEETS.md.

use super::mistakes::{self, MISTAKES};
use super::press::{press, Call};
use crate::records::{bytes, read, A};
use crate::samples::{self, from_words};

/// The code, the place and the three numbers beside them.
fn pressed(sheet: &[u8], stimulus: &[u8], leaf: usize) -> (u8, u32, [u64; 3]) {
    let outcome = press(&Call { sheet, stimulus, leaf });
    (outcome.answer.code, outcome.answer.place, outcome.numbers())
}

/// What is told of a call that nothing refuses.
fn told(sheet: &[u8], stimulus: &[u8], leaf: usize) -> [u64; 3] {
    let (code, place, numbers) = pressed(sheet, stimulus, leaf);
    assert_eq!((code, place), (0, 0));
    numbers
}

const NONE: [u64; 3] = [0; 3];

/// AND gives 1 on (1,1), 2 where a part is 2, else undefined.
#[test]
fn of_and() {
    let and = samples::and();
    assert_eq!(told(&and, &[1, 1], 0), [1, 0, 2]);
    // From 2: with the other part 2 nothing alters it.
    assert_eq!(told(&and, &[2, 2], 0), NONE);
    // Only the first part can make it 1.
    assert_eq!(told(&and, &[2, 1], 0), [1, 0, 1]);
    // A change of the first part to 2 leaves 2: the second part it is.
    assert_eq!(told(&and, &[1, 2], 0), [1, 1, 1]);
    // From undefined: 1 in the first part stays undefined, 2 does not.
    assert_eq!(told(&and, &[0, 0], 0), [1, 0, 2]);
    assert_eq!(told(&and, &[0, 1], 0), [1, 0, 1]);
    // Undefined already at (1, 0): 2 in the first part makes it 2.
    assert_eq!(told(&and, &[1, 0], 0), [1, 0, 2]);
    // To undefined: of (2, 0) the first part to 1.
    assert_eq!(told(&and, &[2, 0], 0), [1, 0, 1]);
    // The first part decides at 2 alone if it is changed; it is undefined now,
    // and 1 leaves the 2 that the second part makes.
    assert_eq!(told(&and, &[0, 2], 0), [1, 1, 1]);
}

/// T's output is what its delay holds, whatever the input.
#[test]
fn of_t() {
    let t = samples::t();
    for input in 0..=2 {
        assert_eq!(told(&t, &[input], 0), NONE);
    }
    // Nor do other sheets that do not look at their inputs tell a change.
    assert_eq!(told(&samples::self_feedback(), &[1], 0), NONE);
    assert_eq!(told(&samples::pair_feedback(), &[2], 1), NONE);
}

/// The input is a three and a bit; the output its second part, IF its first part
/// is 3 THEN the delay's value ELSE 1, and the first part. The delay holds `held`,
/// and next the second part.
fn three_leaves(held: u16) -> Vec<u8> {
    bytes(&from_words(&[
        &[1, 1, 3, 6],
        &[16, 2, 3],
        &[16, 3, 2],
        &[17, 4, 1, 2],
        &[17, 5, 2, 1],
        &[17, 0, 2, 4],
        &[34, 0, 7, 9],
        &[36, 0, 8],
        &[33],
        &[34, 0, 10, 19],
        &[39, 0, 11, 13, 17, 21],
        &[35, 0, 12],
        &[33],
        &[40, 0, 2, 14, 15],
        &[64, 0, held],
        &[36, 0, 16],
        &[33],
        &[32, 0, 2, 18],
        &[64, 0, 1],
        &[35, 0, 20],
        &[33],
        &[49, 0, 1, 3],
    ]))
}

#[test]
fn by_output_leaf() {
    let sheet = three_leaves(2);
    // The second part by itself.
    assert_eq!(told(&sheet, &[1, 1], 0), [1, 1, 2]);
    assert_eq!(told(&sheet, &[1, 2], 0), [1, 1, 1]);
    assert_eq!(told(&sheet, &[1, 0], 0), [1, 1, 1]);
    // 2 in the first part leaves 1, 3 gives what the delay holds.
    assert_eq!(told(&sheet, &[1, 1], 1), [1, 0, 3]);
    assert_eq!(told(&sheet, &[2, 1], 1), [1, 0, 3]);
    assert_eq!(told(&sheet, &[3, 1], 1), [1, 0, 1]);
    // The first part by itself.
    assert_eq!(told(&sheet, &[1, 1], 2), [1, 0, 2]);
    assert_eq!(told(&sheet, &[2, 1], 2), [1, 0, 1]);
    assert_eq!(told(&sheet, &[0, 1], 2), [1, 0, 1]);
}

/// The delay's held value counts: holding 1, the second output leaf is 1
/// whatever the input; holding undefined, 3 alters it to undefined.
#[test]
fn at_held_values() {
    assert_eq!(told(&three_leaves(1), &[1, 2], 1), NONE);
    assert_eq!(told(&three_leaves(0), &[1, 2], 1), [1, 0, 3]);
    assert_eq!(told(&three_leaves(0), &[3, 2], 1), [1, 0, 1]);
    // Undecided between 1 and 1 is 1; between 2 and 1 undefined, which 1 alters.
    assert_eq!(told(&three_leaves(1), &[0, 2], 1), NONE);
    assert_eq!(told(&three_leaves(2), &[0, 2], 1), [1, 0, 1]);
    assert_eq!(told(&three_leaves(0), &[0, 2], 1), [1, 0, 1]);
}

/// A leaf of one constructor has no change but from undefined: the output is
/// the input.
#[test]
fn of_one_constructor() {
    let sheet = bytes(&from_words(&[&[1, 1, 1, 2], &[16, 0, 1], &[33]]));
    assert_eq!(told(&sheet, &[1], 0), NONE);
    assert_eq!(told(&sheet, &[0], 0), [1, 0, 1]);
}

#[test]
fn refusals() {
    let (t, and) = (samples::t(), samples::and());
    // 8: empty, two cycles, more, a part of one, too many bytes; also for a leaf
    // that there is not.
    for leaf in [0, 1, usize::MAX] {
        for stimulus in [&[][..], &[1, 2], &[3; 2], &[1; 65_535], &[1; 65_536]] {
            assert_eq!(pressed(&t, stimulus, leaf), (8, 0, NONE));
        }
        for stimulus in [&[][..], &[1], &[1, 1, 1], &[1, 1, 1, 1]] {
            assert_eq!(pressed(&and, stimulus, leaf), (8, 0, NONE));
        }
        // 9 at the first byte above its leaf's count.
        assert_eq!(pressed(&t, &[3], leaf), (9, 0, NONE));
        assert_eq!(pressed(&and, &[2, 3], leaf), (9, 1, NONE));
        assert_eq!(pressed(&and, &[255, 3], leaf), (9, 0, NONE));
    }
    // 21 at the number of output leaves.
    for leaf in [1, 2, 1 << 32, (1 << 32) + 1, usize::MAX] {
        assert_eq!(pressed(&and, &[1, 1], leaf), (21, 1, NONE));
    }
    assert_eq!(pressed(&samples::pair_feedback(), &[1], 2), (21, 2, NONE));
    assert_eq!(pressed(&three_leaves(1), &[1, 1], 3), (21, 3, NONE));
    // The sheet first.
    assert_eq!(pressed(&t[1..], &[], 5), (1, 0, NONE));
    let mut records = read(&t);
    records[0][A] = 0;
    assert_eq!(pressed(&bytes(&records), &[], 5), (2, 0, NONE));
}

/// Each mistake shows on some call.
#[test]
fn mistakes_show() {
    let calls: [(Vec<u8>, &[u8], usize); 19] = [
        (samples::and(), &[1, 1], 0),
        (samples::and(), &[2, 2], 0),
        (samples::and(), &[1, 2], 0),
        (samples::and(), &[0, 0], 0),
        (samples::and(), &[1, 0], 0),
        (samples::and(), &[2, 0], 0),
        (samples::and(), &[], 0),
        (samples::and(), &[1, 1, 1, 1], 0),
        (samples::and(), &[3, 3, 3], 0),
        (samples::and(), &[1], 1),
        (samples::and(), &[1, 3], 1),
        (samples::and(), &[1, 1], 1 << 32),
        (samples::and(), &[1, 1], 1),
        (three_leaves(2), &[1, 1], 0),
        (three_leaves(2), &[1, 1], 1),
        (three_leaves(2), &[2, 1], 2),
        (three_leaves(0), &[3, 2], 1),
        (three_leaves(2), &[0, 1], 1),
        (three_leaves(1), &[1, 2], 1),
    ];
    for (name, mistake) in MISTAKES {
        let shows = calls.iter().any(|(sheet, stimulus, leaf)| {
            let call = Call { sheet, stimulus, leaf: *leaf };
            press(&call) != mistakes::press(&call, Some(mistake))
        });
        assert!(shows, "{name}");
    }
}
