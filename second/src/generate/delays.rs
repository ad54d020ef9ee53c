//! Circuits of many delays, with given labels and types of given shapes, and
//! two lists of such delays that have labels in common.

use super::labels::Labels;
use crate::draft::{Draft, Term};
use crate::random::Random;
use crate::records::D;

/// A type without its record.
#[derive(Clone, PartialEq, Eq, Debug)]
pub enum Shape {
    Flat(u16),
    Pair(Box<Shape>, Box<Shape>),
}

/// A labelled delay and its type.
#[derive(Clone, Debug)]
pub struct Labelled {
    pub label: u16,
    pub shape: Shape,
}

fn pair(first: Shape, second: Shape) -> Shape {
    Shape::Pair(Box::new(first), Box::new(second))
}

/// A random shape of up to so many leaves.
pub fn shape(leaves: usize, random: &mut Random) -> Shape {
    if leaves <= 1 || random.one_in(3) {
        return Shape::Flat(random.range(1, 3) as u16);
    }
    let left = random.range(1, leaves - 1);
    pair(shape(left, random), shape(leaves - left, random))
}

/// A shape much like another one: another count of a flat, parts exchanged,
/// pairs in other places with the same leaves, a flat for a pair or a pair for
/// a flat.
pub fn varied(of: &Shape, random: &mut Random) -> Shape {
    match of {
        Shape::Flat(count) if random.one_in(4) => {
            pair(Shape::Flat(*count), Shape::Flat(random.range(1, 3) as u16))
        }
        Shape::Flat(count) => Shape::Flat(if *count == 1 { 2 } else { count - 1 }),
        Shape::Pair(first, second) => match (&**first, &**second, random.below(6)) {
            (Shape::Pair(a, b), c, 0 | 1) => pair((**a).clone(), pair((**b).clone(), c.clone())),
            (a, Shape::Pair(b, c), 0 | 1) => pair(pair(a.clone(), (**b).clone()), (**c).clone()),
            (a, b, 2) => pair(b.clone(), a.clone()),
            (a, _, 3) => a.clone(),
            (a, b, 4) => pair(varied(a, random), b.clone()),
            (a, b, _) => pair(a.clone(), varied(b, random)),
        },
    }
}

/// A type of a shape: flat types that are there or new ones, and pair types.
fn type_of(draft: &mut Draft, shape: &Shape, random: &mut Random) -> usize {
    match shape {
        Shape::Flat(count) => {
            let alike = |&of: &usize| draft.parts(of).is_none() && draft.counts(of) == [*count];
            let flats: Vec<usize> = draft.chain.iter().copied().filter(alike).collect();
            match random.pick(&flats) {
                Some(flat) if !random.one_in(5) => flat,
                _ => draft.flat(*count),
            }
        }
        Shape::Pair(first, second) => {
            let first = type_of(draft, first, random);
            let second = type_of(draft, second, random);
            draft.need_pair(first, second)
        }
    }
}

/// Joins expressions in a random tree of LETs; the names in it are constants'
/// only, so that no scope matters.
fn joined(draft: &mut Draft, parts: &[usize], random: &mut Random) -> usize {
    match parts {
        [part] => *part,
        _ => {
            let at = random.range(1, (parts.len() - 1).min(30));
            let (first, rest) = parts.split_at(at);
            let first = joined(draft, first, random);
            let rest = joined(draft, rest, random);
            draft.bind(first, rest)
        }
    }
}

/// A circuit of such delays, at least one, each on a constant.
pub fn circuit_of_delays(delays: &[Labelled], random: &mut Random) -> Draft {
    let mut draft = Draft::new();
    let flat = draft.flat(2);
    draft.set_input(flat);
    let mut parts = Vec::with_capacity(delays.len());
    for delay in delays {
        let of = type_of(&mut draft, &delay.shape, random);
        let part = draft.random_constant(of, random);
        let leaf = draft.random_leaves(of, random);
        let node = draft.delay(of, leaf, part);
        draft.nodes[node].words[D] = Term::Number(delay.label);
        parts.push(node);
    }
    let root = joined(&mut draft, &parts, random);
    draft.set_root(root);
    draft
}

/// A list of delays, with labels in one way.
pub fn delays(labels: Labels, random: &mut Random) -> Vec<Labelled> {
    let count = random.range(1, 9);
    let drawn = labels.draw(count, random);
    drawn.into_iter().map(|label| Labelled { label, shape: shape(5, random) }).collect()
}

/// A list of delays made from another one: some have other shapes, some other
/// labels, some are left out or added; in another order. Labels that were
/// different stay different.
pub fn delays_like(delays: &[Labelled], random: &mut Random) -> Vec<Labelled> {
    let mut like: Vec<Labelled> = delays.iter().filter(|_| !random.one_in(8)).cloned().collect();
    for delay in &mut like {
        if random.one_in(3) {
            delay.shape = varied(&delay.shape, random);
        }
        if random.one_in(8) {
            delay.label = 0;
        }
    }
    let other = 1 + delays.iter().map(|delay| delay.label % 30_000).max().unwrap_or(0);
    for k in 0..random.below(3) + usize::from(like.is_empty()) {
        let label = if random.one_in(2) { 0 } else { 30_000 + other + k as u16 };
        like.push(Labelled { label, shape: shape(5, random) });
    }
    for k in (1..like.len()).rev() {
        like.swap(k, random.below(k + 1));
    }
    like
}

/// Gives one delay the label of another one; whether there are two.
pub fn repeat_label(delays: &mut [Labelled], random: &mut Random) -> bool {
    let Some(last) = delays.len().checked_sub(1).filter(|&last| last > 0) else { return false };
    let (one, other) = (random.below(last), last);
    let label = random.range(1, 5) as u16;
    delays[one].label = label;
    delays[other].label = label;
    delays.swap(other, random.below(last + 1));
    true
}
