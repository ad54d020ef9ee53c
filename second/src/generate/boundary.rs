//! Changes that bring a circuit to a limit, or past it, and keep every other
//! rule: depth, nesting of feedbacks, leaves.

use super::types;
use crate::draft::{Draft, Term};
use crate::random::Random;
use crate::records::CONSTANT;
use crate::survey::{below, expressions, some_kind, Spot};

/// Puts an expression of the same type and one level more in the place of a
/// spot: LET x = e IN x, a delay of e, or an IF with e as its tested part.
fn wrap(draft: &mut Draft, spot: Spot, random: &mut Random) -> Spot {
    let of = draft.nodes[spot.node].of;
    let node = match random.below(4) {
        0 if draft.width(of) <= 2 => {
            let leaf = draft.random_leaves(of, random);
            draft.delay(of, leaf, spot.node)
        }
        1 if draft.width(of) <= 2 => {
            let pattern = draft.whole(of);
            let then = draft.random_constant(of, random);
            let other = draft.random_constant(of, random);
            draft.choice(spot.node, pattern, then, other)
        }
        _ => {
            let body = draft.name(0, of);
            draft.bind(spot.node, body)
        }
    };
    draft.nodes[spot.holder].words[spot.word] = Term::Part(node);
    Spot { node, ..spot }
}

/// Deepens a random expression so that the deepest one below it, and no
/// other, comes to lie at a depth. No change if it lies there or deeper.
pub fn deepen(draft: &mut Draft, depth: usize, random: &mut Random) -> bool {
    let spots = expressions(draft);
    let Some(mut spot) = random.pick(&spots) else { return false };
    let deepest = below(draft, spot).iter().map(|s| s.depth).max().unwrap_or(0);
    if deepest >= depth {
        return false;
    }
    for _ in deepest..depth {
        spot = wrap(draft, spot, random);
    }
    true
}

/// Puts feedbacks around a random constant, so that it lies in the defining
/// parts of so many. No change if it lies in as many, or too deep for it.
pub fn nest(draft: &mut Draft, nesting: usize, random: &mut Random) -> bool {
    let Some(spot) = some_kind(draft, random, CONSTANT) else { return false };
    if spot.nesting >= nesting || spot.depth + nesting - spot.nesting > 64 {
        return false;
    }
    let of = draft.nodes[spot.node].of;
    let mut node = spot.node;
    for _ in spot.nesting..nesting {
        let body = draft.name(0, of);
        node = draft.feedback(of, node, body);
    }
    draft.nodes[spot.holder].words[spot.word] = Term::Part(node);
    true
}

/// Puts feedbacks on top of each other's bodies around a random constant.
pub fn nest_bodies(draft: &mut Draft, count: usize, random: &mut Random) -> bool {
    let Some(spot) = some_kind(draft, random, CONSTANT) else { return false };
    if spot.nesting >= 3 || spot.depth + count > 64 {
        return false;
    }
    let of = draft.nodes[spot.node].of;
    let flat = draft.chain[0];
    let mut node = spot.node;
    for _ in 0..count {
        let defining = draft.name(0, flat);
        node = draft.feedback(flat, defining, node);
        draft.nodes[node].of = of;
    }
    draft.nodes[spot.holder].words[spot.word] = Term::Part(node);
    true
}

/// Adds a pair type of exactly so many leaves, its parts of at most 64.
pub fn widen(draft: &mut Draft, leaves: usize, random: &mut Random) -> usize {
    let low = leaves.saturating_sub(64).max(1);
    let left = random.range(low, (leaves - 1).min(64));
    let first = types::split(draft, left, random);
    let second = types::split(draft, leaves - left, random);
    draft.need_pair(first, second)
}
