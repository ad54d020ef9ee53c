//! Sheets at a limit and just past it.

use super::building::laid;
use crate::draft::Draft;
use crate::generate::circuits::circuit_of_records;
use crate::generate::types::doubling;
use crate::layout::Order;
use crate::random::Random;

/// One flat type, which is the input's type.
fn bit() -> (Draft, usize) {
    let mut draft = Draft::new();
    let bit = draft.flat(2);
    draft.set_input(bit);
    (draft, bit)
}

/// LETs in each other's bodies, the last name at a depth.
fn depth(depth: usize) -> Vec<u8> {
    let (mut draft, bit) = bit();
    let mut root = draft.name(0, bit);
    for _ in 1..depth {
        let defining = draft.name(0, bit);
        root = draft.bind(defining, root);
    }
    draft.set_root(root);
    laid(&draft, Order::Random)
}

pub fn depth_64() -> Vec<u8> {
    depth(64)
}

pub fn depth_65() -> Vec<u8> {
    depth(65)
}

/// An input of 64 leaves, and one leaf more.
fn leaves(extra: bool) -> Vec<u8> {
    let (mut draft, bit) = bit();
    let mut of = doubling(&mut draft, 6);
    if extra {
        of = draft.pair_type(of, bit);
    }
    draft.set_input(of);
    let root = draft.name(0, of);
    draft.set_root(root);
    laid(&draft, Order::Random)
}

pub fn leaves_64() -> Vec<u8> {
    leaves(false)
}

pub fn leaves_65() -> Vec<u8> {
    leaves(true)
}

/// Feedbacks in each other's defining parts.
fn nesting(count: usize) -> Vec<u8> {
    let (mut draft, bit) = bit();
    let mut root = draft.name(0, bit);
    for _ in 0..count {
        let body = draft.name(0, bit);
        root = draft.feedback(bit, root, body);
    }
    draft.set_root(root);
    laid(&draft, Order::Random)
}

pub fn nesting_3() -> Vec<u8> {
    nesting(3)
}

pub fn nesting_4() -> Vec<u8> {
    nesting(4)
}

/// Ten feedbacks in each other's bodies, which is not nesting.
pub fn many_bodies() -> Vec<u8> {
    let (mut draft, bit) = bit();
    let mut root = draft.name(0, bit);
    for _ in 0..10 {
        let defining = draft.name(0, bit);
        root = draft.feedback(bit, defining, root);
    }
    draft.set_root(root);
    laid(&draft, Order::Random)
}

pub fn longest() -> Vec<u8> {
    laid(&circuit_of_records(4096, &mut Random::new(7)), Order::Random)
}

pub fn too_long() -> Vec<u8> {
    laid(&circuit_of_records(4097, &mut Random::new(7)), Order::Random)
}
