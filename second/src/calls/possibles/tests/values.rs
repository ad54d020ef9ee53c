//! What leaves may be.

use super::asked::{answered, circuit, constant, copying, counts, flat_chain, NO, UNDECIDED, YES};
use crate::records::{bytes, read, D};
use crate::samples;

/// AND: undefined leaves leave both results unless a 2 decides.
#[test]
fn of_and() {
    let and = samples::and();
    for (input, count) in
        [([0, 0], 2), ([1, 0], 2), ([0, 1], 2), ([2, 0], 1), ([0, 2], 1), ([1, 1], 1), ([1, 2], 1)]
    {
        assert_eq!(counts(&and, &input), [count], "{input:?}");
    }
}

/// Constants, delays and the input begin alike. A delay is what it holds, not
/// what it delays, and its label plays no part.
#[test]
fn beginnings() {
    let held = |value: u16, part: u16| {
        circuit(|draft| {
            let five = draft.flat(5);
            let (leaf, part) = (draft.leaves(&[value]), constant(draft, five, &[part]));
            (five, draft.delay(five, leaf, part))
        })
    };
    for (value, part, count) in [(0, 2, 5), (2, 0, 1), (5, 1, 1), (0, 0, 5)] {
        assert_eq!(counts(&held(value, part), &[0]), [count], "{value} and then {part}");
    }
    let mut labelled = read(&held(0, 2));
    labelled[2][D] = 9;
    assert_eq!(counts(&bytes(&labelled), &[1]), [5]);
    let sheet = circuit(|draft| {
        let (three, five) = (draft.flat(3), draft.flat(5));
        let two = draft.need_pair(three, five);
        (three, constant(draft, two, &[0, 4]))
    });
    assert_eq!(counts(&sheet, &[0]), [3, 1]);
    // A delayed part may be an IF that is undecided: it is of no account.
    let sheet = circuit(|draft| {
        let bit = draft.flat(2);
        let (tested, one) = (draft.name(0, bit), draft.constructor(bit, 1));
        let (then, other) = (draft.name(0, bit), draft.name(0, bit));
        let part = draft.choice(tested, one, then, other);
        let leaf = draft.leaves(&[1]);
        (bit, draft.delay(bit, leaf, part))
    });
    assert_eq!(counts(&sheet, &[0]), [1]);
}

/// An undecided IF joins both branches leaf by leaf, of different values, equal
/// ones and undefined ones.
#[test]
fn undecided_joins() {
    let sheet = circuit(|draft| {
        let (bit, four) = (draft.flat(2), draft.flat(4));
        let two = draft.need_pair(four, four);
        let of = draft.need_pair(two, two);
        let (tested, one) = (draft.name(0, bit), draft.constructor(bit, 1));
        let then = constant(draft, of, &[1, 2, 0, 4]);
        let other = constant(draft, of, &[3, 2, 1, 0]);
        (bit, draft.choice(tested, one, then, other))
    });
    assert_eq!(counts(&sheet, &[0]), [2, 1, 4, 4]);
    assert_eq!(counts(&sheet, &[1]), [1, 1, 4, 1]);
    assert_eq!(counts(&sheet, &[2]), [1, 1, 1, 4]);
}

/// Names, pairs and their parts, on an input of a bit, a three and a four.
#[test]
fn parts() {
    let sheet = circuit(|draft| {
        let (bit, three, four) = (draft.flat(2), draft.flat(3), draft.flat(4));
        let (last, swapped) = (draft.need_pair(three, four), draft.need_pair(four, bit));
        let input = draft.need_pair(bit, last);
        let of = draft.need_pair(swapped, last);
        // LET x = second of input IN ((second of x, first of input), x)
        let whole = draft.name(0, input);
        let defining = draft.second(whole, last);
        let x = draft.name(0, last);
        let of_four = draft.second(x, four);
        let whole = draft.name(1, input);
        let of_bit = draft.first(whole, bit);
        let (first, second) = (draft.pair(of_four, of_bit, swapped), draft.name(0, last));
        let body = draft.pair(first, second, of);
        (input, draft.bind(defining, body))
    });
    assert_eq!(counts(&sheet, &[0, 0, 0]), [4, 2, 3, 4]);
    assert_eq!(counts(&sheet, &[2, 0, 0]), [4, 1, 3, 4]);
    assert_eq!(counts(&sheet, &[0, 3, 0]), [4, 2, 1, 4]);
    assert_eq!(counts(&sheet, &[0, 0, 4]), [1, 2, 3, 1]);
}

/// 64 constructors pass, 65 do not.
#[test]
fn limits() {
    for count in [1, 2, 63, 64] {
        assert_eq!(counts(&copying(count), &[0]), [count as u8]);
        assert_eq!(counts(&copying(count), &[count as u8]), [1]);
    }
    for count in [65, 66, 128, 255] {
        assert_eq!(answered(&copying(count), &[0], 1), (22, 1, vec![7]));
    }
    // All 64 but one, all, and only the last.
    let all: Vec<u16> = (1..=64).collect();
    assert_eq!(counts(&flat_chain(64, &all), &[0]), YES);
    assert_eq!(counts(&flat_chain(64, &all[..63]), &[0]), UNDECIDED);
    assert_eq!(counts(&flat_chain(64, &all[..63]), &[64]), NO);
    assert_eq!(counts(&flat_chain(64, &[64]), &[64]), YES);
    assert_eq!(counts(&flat_chain(64, &[64]), &[63]), NO);
}
