//! Random patterns of a type, and patterns that several IFs share.

use std::collections::BTreeMap;

use crate::draft::{Draft, Term};
use crate::random::Random;
use crate::records::{A, D};
use crate::survey::choices;

/// A chain of one or more alternatives; the first of them.
pub fn chain(draft: &mut Draft, of: usize, random: &mut Random) -> usize {
    let mut patterns = vec![alternative(draft, of, random)];
    while patterns.len() < 8 && random.one_in(2) {
        patterns.push(alternative(draft, of, random));
    }
    draft.alternatives(&patterns)
}

/// One alternative; seldom one that goes down to every leaf.
pub fn alternative(draft: &mut Draft, of: usize, random: &mut Random) -> usize {
    if random.one_in(10) {
        full(draft, of, random)
    } else {
        single(draft, of, random)
    }
}

/// A short chain, for the part of a pair pattern.
fn part(draft: &mut Draft, of: usize, random: &mut Random) -> usize {
    let mut patterns = vec![single(draft, of, random)];
    while patterns.len() < 4 && random.one_in(6) {
        patterns.push(single(draft, of, random));
    }
    draft.alternatives(&patterns)
}

/// One alternative. The parts of a pair pattern may be chains.
fn single(draft: &mut Draft, of: usize, random: &mut Random) -> usize {
    if random.one_in(3) {
        return draft.whole(of);
    }
    match draft.parts(of) {
        Some((first, second)) => {
            let first = part(draft, first, random);
            let second = part(draft, second, random);
            draft.pair_pattern(first, second, of)
        }
        None => flat(draft, of, random),
    }
}

/// Pair patterns down to the flat types.
pub fn full(draft: &mut Draft, of: usize, random: &mut Random) -> usize {
    match draft.parts(of) {
        Some((first, second)) => {
            let first = full(draft, first, random);
            let second = full(draft, second, random);
            draft.pair_pattern(first, second, of)
        }
        None => flat(draft, of, random),
    }
}

/// A constructor of a flat type.
fn flat(draft: &mut Draft, of: usize, random: &mut Random) -> usize {
    let count = usize::from(draft.nodes[of].number(A));
    draft.constructor(of, random.range(1, count) as u16)
}

/// In half of the circuits IFs name the patterns of others with the same
/// tested type. The patterns they had are then named by nothing.
pub fn share(draft: &mut Draft, random: &mut Random) {
    if random.one_in(2) {
        return;
    }
    let mut kept: BTreeMap<usize, Vec<usize>> = BTreeMap::new();
    for choice in choices(draft) {
        let Some(own) = draft.nodes[choice].target(D) else { continue };
        let of_type = kept.entry(draft.nodes[own].of).or_default();
        match random.pick(of_type) {
            Some(other) if !random.one_in(3) => {
                draft.nodes[choice].words[D] = Term::Part(other);
            }
            _ => of_type.push(own),
        }
    }
}
