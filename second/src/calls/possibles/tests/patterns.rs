//! What patterns say of sets.

use super::asked::{
    asking, circuit, constant, counts, flat_chain, flat_pattern, pair_chain, NO, UNDECIDED, YES,
};

/// A chain on a flat type is asked as one: 1|2 on an undefined bit says yes.
#[test]
fn flat_chains() {
    for (count, chain, on_undefined) in [
        (2, &[1, 2][..], YES),
        (2, &[2, 1], YES),
        (2, &[1, 1], UNDECIDED),
        (2, &[1], UNDECIDED),
        (2, &[0], YES),
        (2, &[1, 0], YES),
        (3, &[1, 2], UNDECIDED),
        (3, &[3, 1, 2], YES),
        (3, &[2, 0], YES),
        // The only constructor is the possible one, though undefined.
        (1, &[1], YES),
    ] {
        let sheet = flat_chain(count, chain);
        assert_eq!(counts(&sheet, &[0]), on_undefined, "{chain:?} of {count}");
        for input in 1..=count {
            let named = chain.contains(&input) || chain.contains(&0);
            let said = if named { YES } else { NO };
            assert_eq!(counts(&sheet, &[input as u8]), said, "{chain:?} on {input} of {count}");
        }
    }
}

/// LET x = IF input MATCHES 1 THEN 1 ELSE 3, of four constructors: on an
/// undefined input x is 1 or 3.
#[test]
fn some_of_a_type() {
    let asked = |chain: &[u16]| {
        circuit(|draft| {
            let four = draft.flat(4);
            let (one, tested) = (draft.constructor(four, 1), draft.name(0, four));
            let (then, other) = (constant(draft, four, &[1]), constant(draft, four, &[3]));
            let defining = draft.choice(tested, one, then, other);
            let (name, pattern) = (draft.name(0, four), flat_pattern(draft, four, chain));
            let body = asking(draft, name, pattern);
            (four, draft.bind(defining, body))
        })
    };
    assert_eq!(counts(&asked(&[1, 3]), &[0]), YES);
    assert_eq!(counts(&asked(&[3, 4, 1]), &[0]), YES);
    assert_eq!(counts(&asked(&[2, 4]), &[0]), NO);
    assert_eq!(counts(&asked(&[1, 2]), &[0]), UNDECIDED);
    assert_eq!(counts(&asked(&[1, 2, 4]), &[0]), UNDECIDED);
    assert_eq!(counts(&asked(&[0]), &[0]), YES);
    assert_eq!(counts(&asked(&[1, 2]), &[1]), YES);
    assert_eq!(counts(&asked(&[1, 2]), &[4]), NO);
}

/// Pair patterns go by document 01's rules, alternative by alternative.
#[test]
fn pair_chains() {
    let one: &[u16] = &[1];
    let two: &[u16] = &[2];
    let either: &[u16] = &[1, 2];
    let whole: &[u16] = &[0];
    let none: &[u16] = &[];
    let (undefined, first, second) = ([0, 0], [1, 0], [2, 0]);
    // A chain that is a part of a pair pattern is joined.
    let inside = pair_chain(&[(either, whole)]);
    assert_eq!([undefined, first, second].map(|on| counts(&inside, &on)), [YES, YES, YES]);
    let inside = pair_chain(&[(one, either)]);
    assert_eq!([undefined, first, second].map(|on| counts(&inside, &on)), [UNDECIDED, YES, NO]);
    // All pairs are named, but each alternative by itself is undecided.
    let all = pair_chain(&[(one, one), (one, two), (two, whole)]);
    let said = [UNDECIDED, UNDECIDED, YES];
    assert_eq!([undefined, first, second].map(|on| counts(&all, &on)), said);
    let halves = pair_chain(&[(one, whole), (two, whole)]);
    assert_eq!([undefined, first, second].map(|on| counts(&halves, &on)), [UNDECIDED, YES, YES]);
    // (1,1)|(2,2) on (1, 0): undecided and no.
    let equal = pair_chain(&[(one, one), (two, two)]);
    assert_eq!([undefined, first, second].map(|on| counts(&equal, &on)), [UNDECIDED; 3]);
    assert_eq!([[1, 1], [2, 2], [1, 2]].map(|on| counts(&equal, &on)), [YES, YES, NO]);
    // A whole type among them says yes at once, wherever it stands.
    let with_whole = pair_chain(&[(one, one), (none, none)]);
    assert_eq!([undefined, first, second].map(|on| counts(&with_whole, &on)), [YES; 3]);
    let with_whole = pair_chain(&[(none, none), (two, two)]);
    assert_eq!([undefined, first, second].map(|on| counts(&with_whole, &on)), [YES; 3]);
    // No in one part is enough, though the other is undecided.
    let ones = pair_chain(&[(one, one)]);
    assert_eq!([undefined, first, second].map(|on| counts(&ones, &on)), [UNDECIDED, UNDECIDED, NO]);
    assert_eq!([[0, 2], [0, 1]].map(|on| counts(&ones, &on)), [NO, UNDECIDED]);
}

/// Two leaves of one name are estimated apart: (x, x) is not known to be equal.
#[test]
fn leaf_by_leaf() {
    let sheet = circuit(|draft| {
        let bit = draft.flat(2);
        let two = draft.need_pair(bit, bit);
        let (x, y) = (draft.name(0, bit), draft.name(0, bit));
        let tested = draft.pair(x, y, two);
        let patterns = [1, 2].map(|number| {
            let (first, second) = (draft.constructor(bit, number), draft.constructor(bit, number));
            draft.pair_pattern(first, second, two)
        });
        let pattern = draft.alternatives(&patterns);
        (bit, asking(draft, tested, pattern))
    });
    assert_eq!(counts(&sheet, &[0]), UNDECIDED);
    assert_eq!(counts(&sheet, &[1]), YES);
}
