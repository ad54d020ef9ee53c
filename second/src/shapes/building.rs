//! What named sheets are built with.

use crate::draft::Draft;
use crate::layout::{layout_in, record_count, Order};
use crate::random::Random;
use crate::records::{bytes, MAX_RECORDS};

/// The bytes of a draft in a layout of the given order.
pub fn laid(draft: &Draft, order: Order) -> Vec<u8> {
    bytes(&layout_in(draft, order, &mut Random::new(1)))
}

/// Adds flat types at the end of the chain up to 4,096 records.
pub fn fill(draft: &mut Draft) {
    let count = record_count(draft);
    assert!(count <= MAX_RECORDS, "{count} records");
    for _ in count..MAX_RECORDS {
        draft.flat(2);
    }
}

/// Joins expressions in a tree of LETs that is as flat as can be. Each is
/// made with the count of names in its scope.
pub fn joined(
    draft: &mut Draft,
    count: usize,
    scope: usize,
    make: &dyn Fn(&mut Draft, usize) -> usize,
) -> usize {
    if count <= 1 {
        return make(draft, scope);
    }
    let defining = joined(draft, count / 2, scope, make);
    let body = joined(draft, count - count / 2, scope + 1, make);
    draft.bind(defining, body)
}

/// One flat type of two constructors, which is the input's.
pub fn with_bit() -> (Draft, usize) {
    let mut draft = Draft::new();
    let bit = draft.flat(2);
    draft.set_input(bit);
    (draft, bit)
}

/// A type of 64 leaves that grows by one leaf at a time; all its stages.
pub fn ladder(draft: &mut Draft, bit: usize, left: bool) -> Vec<usize> {
    let mut stages = vec![bit];
    for k in 0..63 {
        let of = stages[k];
        let (first, second) = if left { (of, bit) } else { (bit, of) };
        stages.push(draft.pair_type(first, second));
    }
    stages
}

/// The sheet of a root, filled up with types to 4,096 records.
pub fn finish(mut draft: Draft, root: usize, order: Order) -> Vec<u8> {
    draft.set_root(root);
    fill(&mut draft);
    laid(&draft, order)
}
