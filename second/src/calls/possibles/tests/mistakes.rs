//! Every mistake shows.

use super::asked::{
    asking, circuit, constant, copying, flat_chain, flat_pattern, pair_chain, with_unused,
};
use crate::calls::possibles::mistakes::{self, MISTAKES};
use crate::calls::possibles::remaining::{remaining, Call};
use crate::draft::Term;
use crate::records::{bytes, read, A, D};
use crate::samples;

/// Each mistake shows on some call.
#[test]
fn mistakes_show() {
    let (one, two, whole): (&[u16], &[u16], &[u16]) = (&[1], &[2], &[0]);
    let delay = |held: u16, label: u16| {
        circuit(|draft| {
            let five = draft.flat(5);
            let (leaf, part) = (draft.leaves(&[held]), constant(draft, five, &[0]));
            let delay = draft.delay(five, leaf, part);
            draft.nodes[delay].words[D] = Term::Number(label);
            (five, delay)
        })
    };
    let second = circuit(|draft| {
        let (bit, three) = (draft.flat(2), draft.flat(3));
        let input = draft.need_pair(bit, three);
        let name = draft.name(0, input);
        (input, draft.second(name, three))
    });
    let some = circuit(|draft| {
        let four = draft.flat(4);
        let (tested, pattern) = (draft.name(0, four), flat_pattern(draft, four, &[1]));
        let (then, other) = (constant(draft, four, &[1]), constant(draft, four, &[3]));
        let defining = draft.choice(tested, pattern, then, other);
        let (name, pattern) = (draft.name(0, four), flat_pattern(draft, four, &[2, 4]));
        let body = asking(draft, name, pattern);
        (four, draft.bind(defining, body))
    });
    let mut ill_typed = read(&samples::t());
    ill_typed[14][A] = 3;
    let mut wide = read(&samples::t());
    wide[1][A] = 65;
    let calls: [(Vec<u8>, &[u8], usize); 36] = [
        (samples::and(), &[0, 0], 1),
        (samples::and(), &[2, 0], 1),
        (samples::and(), &[1, 1], 1),
        (samples::and(), &[], 1),
        (samples::and(), &[1, 1, 1, 1], 1),
        (samples::and(), &[3, 3, 3], 1),
        (samples::and(), &[3, 3], 2),
        (samples::and(), &[1, 1], 2),
        (samples::t(), &[], 1),
        (samples::t(), &[3], 1),
        (samples::t(), &[1], 2),
        (samples::t(), &[1], 1),
        (with_unused(true), &[1], 1),
        (with_unused(false), &[1], 1),
        (bytes(&wide), &[1], 1),
        (bytes(&ill_typed), &[1], 1),
        (copying(64), &[0], 1),
        (copying(64), &[64], 1),
        (copying(65), &[0], 1),
        (copying(2), &[0], 1),
        (flat_chain(2, &[1, 2]), &[0], 2),
        (flat_chain(2, &[1, 2]), &[2], 2),
        (flat_chain(3, &[1, 2]), &[0], 2),
        (flat_chain(3, &[0]), &[3], 2),
        (flat_chain(3, &[0]), &[0], 2),
        (pair_chain(&[(&[1, 2], whole)]), &[0, 0], 2),
        (pair_chain(&[(one, one), (one, two), (two, whole)]), &[0, 0], 2),
        (pair_chain(&[(one, one), (two, two)]), &[1, 2], 2),
        (pair_chain(&[(one, one), (two, two)]), &[1, 1], 2),
        (pair_chain(&[(one, one), (&[], &[])]), &[0, 0], 2),
        (delay(2, 0), &[0], 1),
        (delay(2, 9), &[0], 1),
        (delay(0, 0), &[0], 1),
        (second, &[1, 0], 1),
        (some, &[0], 2),
        (samples::two_pairs(), &[0, 0], 1),
    ];
    for (name, mistake) in MISTAKES {
        let shows = calls.iter().any(|(sheet, stimulus, output_length)| {
            let call = Call { sheet, stimulus, output_length: *output_length };
            remaining(&call) != mistakes::remaining(&call, Some(mistake))
        });
        assert!(shows, "{name}");
    }
}
