//! Sheets of 4,096 records, each the worst for some way to check.

use super::building::{finish, joined, ladder, laid, with_bit};
use crate::draft::Draft;
use crate::generate::types::doubling;
use crate::layout::{record_count, Order};

/// 64 expressions that each reach depth 64.
pub fn deep() -> Vec<u8> {
    let (mut draft, bit) = with_bit();
    let stages = ladder(&mut draft, bit, true);
    draft.set_input(stages[63]);
    let root = joined(&mut draft, 64, 1, &|draft, scope| {
        let mut node = draft.name(scope as u16 - 1, stages[63]);
        for stage in stages[..63].iter().rev().take(57) {
            node = draft.first(node, *stage);
        }
        node
    });
    finish(draft, root, Order::Random)
}

/// A tree of pairs of the input with 64 leaves.
fn pair_tree(draft: &mut Draft, of: usize, scope: usize) -> usize {
    match draft.parts(of) {
        None => draft.name(scope as u16 - 1, of),
        Some((first, second)) => {
            let a = pair_tree(draft, first, scope);
            let b = pair_tree(draft, second, scope);
            draft.pair(a, b, of)
        }
    }
}

fn wide_in(order: Order) -> Vec<u8> {
    let (mut draft, _) = with_bit();
    let of = doubling(&mut draft, 6);
    let root = joined(&mut draft, 31, 1, &|draft, scope| pair_tree(draft, of, scope));
    finish(draft, root, order)
}

pub fn wide() -> Vec<u8> {
    wide_in(Order::TypesFirst)
}

pub fn wide_random() -> Vec<u8> {
    wide_in(Order::Random)
}

/// Every pair type of so many flat types.
fn all_pairs(draft: &mut Draft, count: usize) {
    let flats: Vec<usize> = (0..count).map(|_| draft.flat(2)).collect();
    for &first in &flats {
        for &second in &flats {
            draft.pair_type(first, second);
        }
    }
}

fn pair_types_in(order: Order, repeated: bool) -> Vec<u8> {
    let (mut draft, bit) = with_bit();
    all_pairs(&mut draft, 63);
    let root = draft.name(0, bit);
    draft.set_root(root);
    let count = record_count(&draft) + usize::from(repeated);
    for _ in count..4096 {
        let flat = draft.loose_flat(2);
        draft.chain.insert(1, flat);
    }
    if repeated {
        let last = draft.chain[draft.chain.len() - 1];
        let (first, second) = draft.parts(last).unwrap_or((bit, bit));
        draft.pair_type(first, second);
    }
    laid(&draft, order)
}

/// 63 flat types and all their 3,969 pair types.
pub fn pair_types() -> Vec<u8> {
    pair_types_in(Order::TypesFirst, false)
}

pub fn pair_types_random() -> Vec<u8> {
    pair_types_in(Order::Random, false)
}

/// The same, and the last pair type once more: code 5 at the last record.
pub fn pair_types_repeated() -> Vec<u8> {
    pair_types_in(Order::TypesLate, true)
}

/// Many pairs whose types come after, or before, 1,936 other pair types.
fn pair_lookups(last: bool) -> Vec<u8> {
    let (mut draft, _) = with_bit();
    if last {
        all_pairs(&mut draft, 44);
    }
    let of = doubling(&mut draft, 6);
    if !last {
        all_pairs(&mut draft, 44);
    }
    let root = joined(&mut draft, 16, 1, &|draft, scope| pair_tree(draft, of, scope));
    finish(draft, root, Order::TypesFirst)
}

pub fn pair_lookups_last() -> Vec<u8> {
    pair_lookups(true)
}

pub fn pair_lookups_first() -> Vec<u8> {
    pair_lookups(false)
}

/// A chain of 4,094 flat types.
pub fn flat_types() -> Vec<u8> {
    let (mut draft, bit) = with_bit();
    let root = draft.name(0, bit);
    finish(draft, root, Order::TypesLate)
}

/// Constants with 64 leaves, as many as fit.
fn constants(draft: &mut Draft, of: usize) -> usize {
    let room = 4096 - 1 - draft.chain.len();
    joined(draft, room / 66, 1, &|draft, _| {
        let leaf = draft.leaves(&[2; 64]);
        draft.constant(of, leaf)
    })
}

pub fn leaf_chains() -> Vec<u8> {
    let (mut draft, _) = with_bit();
    let of = doubling(&mut draft, 6);
    let root = constants(&mut draft, of);
    finish(draft, root, Order::Random)
}

fn ladder_constants(left: bool) -> Vec<u8> {
    let (mut draft, bit) = with_bit();
    let of = ladder(&mut draft, bit, left)[63];
    let root = constants(&mut draft, of);
    finish(draft, root, Order::Random)
}

pub fn deep_constants() -> Vec<u8> {
    ladder_constants(true)
}

pub fn deep_constants_right() -> Vec<u8> {
    ladder_constants(false)
}

/// Delays with 64 leaves, as many as fit.
pub fn delays() -> Vec<u8> {
    let (mut draft, bit) = with_bit();
    let of = ladder(&mut draft, bit, true)[63];
    draft.set_input(of);
    let root = joined(&mut draft, 60, 1, &|draft, scope| {
        let part = draft.name(scope as u16 - 1, of);
        let leaf = draft.leaves(&[1; 64]);
        draft.delay(of, leaf, part)
    });
    finish(draft, root, Order::Random)
}

/// One constant with 4,091 leaves of a type with 64: code 7.
pub fn one_leaf_chain() -> Vec<u8> {
    let (mut draft, _) = with_bit();
    let of = doubling(&mut draft, 6);
    let leaf = draft.leaves(&vec![1; 4096 - 9]);
    let root = draft.constant(of, leaf);
    finish(draft, root, Order::Random)
}

/// LETs 63 deep with the outermost name in each; many names far out.
pub fn names() -> Vec<u8> {
    let (mut draft, bit) = with_bit();
    let root = joined(&mut draft, 32, 1, &|draft, scope| {
        let mut node = draft.name((scope + 57) as u16, bit);
        for k in (0..58).rev() {
            let defining = draft.name((scope + k - 1) as u16, bit);
            node = draft.bind(defining, node);
        }
        node
    });
    finish(draft, root, Order::Random)
}

/// 4,093 pair types, each a pair of the one before: code 5.
pub fn doubled_types() -> Vec<u8> {
    let (mut draft, bit) = with_bit();
    let mut of = bit;
    for _ in 0..4093 {
        of = draft.pair_type(of, of);
    }
    let root = draft.name(0, bit);
    finish(draft, root, Order::Random)
}
