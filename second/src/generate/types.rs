//! Random lists of types: pair types unique, at most 64 leaves.

use crate::draft::Draft;
use crate::random::Random;

/// A draft with a random chain of types.
pub fn chain(random: &mut Random) -> Draft {
    let mut draft = Draft::new();
    draft.flat(random_count(random));
    match random.below(12) {
        0 => {
            doubling(&mut draft, 6);
        }
        1 => {
            ladder(&mut draft, 64, random);
        }
        2 => {
            split(&mut draft, 64, random);
        }
        _ => {}
    }
    for _ in 0..random.below(10) {
        add(&mut draft, random);
    }
    draft
}

/// Mostly small counts, sometimes the greatest.
pub fn random_count(random: &mut Random) -> u16 {
    match random.below(8) {
        0 => 255,
        1 => random.range(1, 255) as u16,
        _ => random.range(1, 4) as u16,
    }
}

/// Adds a flat type (often of a count that another one has) or a pair type.
pub fn add(draft: &mut Draft, random: &mut Random) {
    if random.one_in(3) {
        let count = random_count(random);
        draft.flat(count);
        return;
    }
    let first = random.pick(&draft.chain).unwrap_or(0);
    let second = random.pick(&draft.chain).unwrap_or(0);
    if draft.width(first) + draft.width(second) <= 64 && draft.find_pair(first, second).is_none() {
        draft.pair_type(first, second);
    }
}

/// A pair of equal parts, again and again, on the first type; the last one.
pub fn doubling(draft: &mut Draft, times: usize) -> usize {
    let mut of = draft.chain[0];
    for _ in 0..times {
        of = draft.need_pair(of, of);
    }
    of
}

/// A type of many leaves that grows by one leaf on one side at a time.
pub fn ladder(draft: &mut Draft, leaves: usize, random: &mut Random) -> usize {
    let flat = draft.chain[0];
    let left = random.one_in(2);
    let mut of = flat;
    for _ in 1..leaves {
        of = if left { draft.need_pair(of, flat) } else { draft.need_pair(flat, of) };
    }
    of
}

/// A type of exactly so many leaves, split at random.
pub fn split(draft: &mut Draft, leaves: usize, random: &mut Random) -> usize {
    if leaves <= 1 {
        let flats: Vec<usize> =
            draft.chain.iter().copied().filter(|&t| draft.parts(t).is_none()).collect();
        return random.pick(&flats).unwrap_or(0);
    }
    let left = random.range(1, leaves - 1);
    let first = split(draft, left, random);
    let second = split(draft, leaves - left, random);
    draft.need_pair(first, second)
}

/// A new type of the same shape as another, but a record of its own.
pub fn twin(draft: &mut Draft, of: usize, random: &mut Random) -> usize {
    match draft.parts(of) {
        None => {
            let count = draft.nodes[of].number(crate::records::A);
            draft.flat(count)
        }
        Some((first, second)) => {
            let (first, second) = match random.below(3) {
                0 => (twin(draft, first, random), second),
                1 => (first, twin(draft, second, random)),
                _ => (twin(draft, first, random), twin(draft, second, random)),
            };
            draft.need_pair(first, second)
        }
    }
}

/// A type other than this one that passes a test.
pub fn other(
    draft: &Draft,
    of: usize,
    random: &mut Random,
    passes: &dyn Fn(&Draft, usize) -> bool,
) -> Option<usize> {
    let others: Vec<usize> =
        draft.chain.iter().copied().filter(|&t| t != of && passes(draft, t)).collect();
    random.pick(&others)
}
