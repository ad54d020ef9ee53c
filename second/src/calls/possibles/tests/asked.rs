//! Sheets that the tests ask, and their answers.

use crate::calls::possibles::remaining::{remaining, Call};
use crate::draft::Draft;
use crate::layout::{layout_in, Order};
use crate::random::Random;
use crate::records::{bytes, read, C, FLAT, NEXT};
use crate::samples::{self, from_words};

/// The code, the place and the slice, which holds 7s beforehand.
pub fn answered(sheet: &[u8], stimulus: &[u8], output_length: usize) -> (u8, u32, Vec<u8>) {
    let outcome = remaining(&Call { sheet, stimulus, output_length });
    let slice = outcome.counts.unwrap_or(vec![7; output_length]);
    (outcome.answer.code, outcome.answer.place, slice)
}

/// The counts of a call that nothing refuses.
pub fn counts<const N: usize>(sheet: &[u8], stimulus: &[u8]) -> [u8; N] {
    let (code, place, counts) = answered(sheet, stimulus, N);
    assert_eq!((code, place), (0, 0));
    counts.try_into().unwrap_or_else(|_| unreachable!("as many counts as asked for"))
}

pub fn laid(draft: &Draft) -> Vec<u8> {
    bytes(&layout_in(draft, Order::Oldest, &mut Random::new(1)))
}

/// A circuit on an input of some type, from the node of its expression.
pub fn circuit(build: impl FnOnce(&mut Draft) -> (usize, usize)) -> Vec<u8> {
    let mut draft = Draft::new();
    let (input, root) = build(&mut draft);
    draft.set_input(input);
    draft.set_root(root);
    laid(&draft)
}

pub fn constant(draft: &mut Draft, of: usize, values: &[u16]) -> usize {
    let leaf = draft.leaves(values);
    draft.constant(of, leaf)
}

/// The counts by which `asking` shows what a pattern says.
pub const YES: [u8; 2] = [1, 3];
pub const NO: [u8; 2] = [3, 1];
pub const UNDECIDED: [u8; 2] = [3, 3];

/// IF some part MATCHES a pattern THEN (1, undefined) ELSE (undefined, 1), both
/// of three constructors: 1 and 3, 3 and 1, or both joined.
pub fn asking(draft: &mut Draft, tested: usize, pattern: usize) -> usize {
    let three = draft.flat(3);
    let two = draft.need_pair(three, three);
    let (then, other) = (constant(draft, two, &[1, 0]), constant(draft, two, &[0, 1]));
    draft.choice(tested, pattern, then, other)
}

/// Asks a chain of constructors, 0 for the whole type, of an input of so many.
pub fn flat_chain(count: u16, chain: &[u16]) -> Vec<u8> {
    circuit(|draft| {
        let of = draft.flat(count);
        let pattern = flat_pattern(draft, of, chain);
        let tested = draft.name(0, of);
        (of, asking(draft, tested, pattern))
    })
}

pub fn flat_pattern(draft: &mut Draft, of: usize, chain: &[u16]) -> usize {
    let alternative = |draft: &mut Draft, number: u16| match number {
        0 => draft.whole(of),
        number => draft.constructor(of, number),
    };
    let patterns: Vec<usize> = chain.iter().map(|n| alternative(draft, *n)).collect();
    draft.alternatives(&patterns)
}

/// Asks a chain of an input of two bits: pairs of chains as above, an empty one
/// for the whole pair.
pub fn pair_chain(chain: &[(&[u16], &[u16])]) -> Vec<u8> {
    circuit(|draft| {
        let bit = draft.flat(2);
        let two = draft.need_pair(bit, bit);
        let patterns: Vec<usize> = chain
            .iter()
            .map(|(first, second)| match first.is_empty() {
                true => draft.whole(two),
                false => {
                    let first = flat_pattern(draft, bit, first);
                    let second = flat_pattern(draft, bit, second);
                    draft.pair_pattern(first, second, two)
                }
            })
            .collect();
        let pattern = draft.alternatives(&patterns);
        let tested = draft.name(0, two);
        (two, asking(draft, tested, pattern))
    })
}

/// The output is the input, of so many constructors.
pub fn copying(count: u16) -> Vec<u8> {
    bytes(&from_words(&[&[1, 1, 1, 2], &[16, 0, count], &[33]]))
}

/// A sheet with a flat type of 65 constructors as its last record, which nothing
/// uses: T, whose record 2 is a feedback, or the one that copies a bit.
pub fn with_unused(fed_back: bool) -> Vec<u8> {
    let mut records = if fed_back { read(&samples::t()) } else { read(&copying(2)) };
    let last = records.len() as u16;
    records[0][C] = last + 1;
    records[1][NEXT] = last;
    records.push([FLAT, 0, 65, 0, 0, 0]);
    bytes(&records)
}
