//! Type rules broken by one expression: code 7.

use super::category::Category;
use crate::answers::ILL_TYPED;
use crate::draft::{Draft, Term};
use crate::generate::types::{other, twin};
use crate::random::Random;
use crate::records::{
    A, B, C, CONSTANT, DELAY, FEEDBACK, FIRST, FLAT, IF, LEAF, NAME, NEXT, PAIR, SECOND, WORD_NAMES,
};
use crate::survey::{some, some_kind, Spot};

pub fn categories() -> Vec<Category> {
    let mut all = names();
    for (kind, name) in [(CONSTANT, "constant"), (DELAY, "delay")] {
        all.extend(leaves(kind, name));
    }
    all.extend(parts());
    all.extend(twins());
    all
}

fn names() -> Vec<Category> {
    vec![
        Category::draft(ILL_TYPED, "name: the count of names in scope", |draft, random| {
            let Some(spot) = some_kind(draft, random, NAME) else { return false };
            draft.nodes[spot.node].words[A] = Term::Number(spot.scope as u16);
            true
        }),
        Category::draft(ILL_TYPED, "name: far over the count of names", |draft, random| {
            let Some(spot) = some_kind(draft, random, NAME) else { return false };
            let number = random.range(spot.scope, 65_535) as u16;
            draft.nodes[spot.node].words[A] = Term::Number(number);
            true
        }),
    ]
}

/// Breaks a name or constant, whichever it is.
pub fn break_closing(draft: &mut Draft, spot: Spot, random: &mut Random) {
    if draft.kind(spot.node) == NAME {
        draft.nodes[spot.node].words[A] = Term::Number((spot.scope + random.below(3)) as u16);
    } else {
        lengthen(draft, spot.node, 1);
    }
}

/// The leaves in the chain of a constant or delay.
fn chain(draft: &Draft, node: usize) -> Vec<usize> {
    let mut leaves = Vec::new();
    let mut next = draft.nodes[node].target(B);
    while let Some(leaf) = next {
        leaves.push(leaf);
        next = draft.nodes[leaf].target(NEXT);
    }
    leaves
}

/// Adds leaves at the end of a chain.
pub fn lengthen(draft: &mut Draft, node: usize, by: usize) {
    let mut last = chain(draft, node)[..].last().copied().unwrap_or(0);
    for _ in 0..by {
        let leaf = draft.add(LEAF, &[], 0);
        draft.nodes[last].words[NEXT] = Term::Part(leaf);
        last = leaf;
    }
}

/// Gives some leaf a value over its flat type's count.
fn overflow(draft: &mut Draft, node: usize, random: &mut Random, just: bool) -> bool {
    let counts = draft.counts(draft.nodes[node].of);
    let fits: Vec<usize> = (0..counts.len()).filter(|&k| counts[k] < 255).collect();
    let Some(k) = random.pick(&fits) else { return false };
    let low = usize::from(counts[k]) + 1;
    let value = if just { low } else { random.range(low, 255) };
    let leaf = chain(draft, node)[k];
    draft.nodes[leaf].words[A] = Term::Number(value as u16);
    true
}

/// Too few leaves, too many, or a leaf over its count.
fn leaves(kind: u16, name: &str) -> Vec<Category> {
    let overflowing = move |just: bool| {
        move |draft: &mut Draft, random: &mut Random| {
            let Some(spot) = some_kind(draft, random, kind) else { return false };
            overflow(draft, spot.node, random, just)
        }
    };
    vec![
        Category::draft(ILL_TYPED, format!("{name}: too few leaves"), move |draft, random| {
            let wide = |spot: &Spot| {
                draft.kind(spot.node) == kind && draft.width(draft.nodes[spot.node].of) > 1
            };
            let Some(spot) = some(draft, random, &wide) else { return false };
            let leaves = chain(draft, spot.node);
            let last = leaves[random.below(leaves.len() - 1)];
            draft.nodes[last].words[NEXT] = Term::Number(0);
            true
        }),
        Category::draft(ILL_TYPED, format!("{name}: too many leaves"), move |draft, random| {
            let Some(spot) = some_kind(draft, random, kind) else { return false };
            let by = if random.one_in(2) { 1 } else { random.range(2, 70) };
            lengthen(draft, spot.node, by);
            true
        }),
        Category::draft(ILL_TYPED, format!("{name}: leaf is count + 1"), overflowing(true)),
        Category::draft(ILL_TYPED, format!("{name}: leaf over its count"), overflowing(false)),
    ]
}

/// A closing expression of a type: a constant, or the input's name.
fn closing(draft: &mut Draft, of: usize, scope: usize, random: &mut Random) -> usize {
    if draft.input() == of && random.one_in(2) {
        draft.name(scope as u16 - 1, of)
    } else {
        draft.random_constant(of, random)
    }
}

/// How many names are in scope in a part.
fn scope_in(draft: &Draft, spot: Spot) -> usize {
    spot.scope + usize::from(draft.kind(spot.node) == FEEDBACK)
}

/// Puts a closing expression of another type into a word of a spot.
fn retype(
    draft: &mut Draft,
    spot: Spot,
    word: usize,
    random: &mut Random,
    passes: &dyn Fn(&Draft, usize) -> bool,
) -> bool {
    let Some(part) = draft.nodes[spot.node].target(word) else { return false };
    let now = draft.nodes[part].of;
    let Some(of) = other(draft, now, random, passes) else { return false };
    let scope = scope_in(draft, spot);
    let node = closing(draft, of, scope, random);
    draft.nodes[spot.node].words[word] = Term::Part(node);
    true
}

/// Breaks the rule of a pair: no pair type of its two parts.
pub fn unpair(draft: &mut Draft, spot: Spot, word: usize, random: &mut Random) -> bool {
    let type_in = |word: usize| draft.nodes[spot.node].target(word).map(|n| draft.nodes[n].of);
    let (Some(first), Some(second)) = (type_in(A), type_in(B)) else { return false };
    retype(draft, spot, word, random, &move |draft, of| {
        let found =
            if word == A { draft.find_pair(of, second) } else { draft.find_pair(first, of) };
        found.is_none()
    })
}

/// Gives the part in a word another type than it has.
pub fn mismatch(draft: &mut Draft, spot: Spot, word: usize, random: &mut Random) -> bool {
    retype(draft, spot, word, random, &|_, _| true)
}

const SAME: [(u16, usize, &str); 4] = [
    (FEEDBACK, B, "feedback: defining part"),
    (DELAY, C, "delay: part"),
    (IF, B, "IF: then"),
    (IF, C, "IF: else"),
];

fn parts() -> Vec<Category> {
    let mut all = Vec::new();
    for (kind, name) in [(FIRST, "first"), (SECOND, "second")] {
        all.push(Category::draft(
            ILL_TYPED,
            format!("{name} part of a flat type"),
            move |draft, random| {
                let Some(spot) = some_kind(draft, random, kind) else { return false };
                retype(draft, spot, A, random, &|draft, of| draft.kind(of) == FLAT)
            },
        ));
    }
    for word in [A, B] {
        let name = format!("pair: no pair type, {} of another type", WORD_NAMES[word]);
        all.push(Category::draft(ILL_TYPED, name, move |draft, random| {
            let Some(spot) = some_kind(draft, random, PAIR) else { return false };
            unpair(draft, spot, word, random)
        }));
    }
    for (kind, word, name) in SAME {
        all.push(Category::draft(
            ILL_TYPED,
            format!("{name} of another type"),
            move |draft, random| {
                let Some(spot) = some_kind(draft, random, kind) else { return false };
                mismatch(draft, spot, word, random)
            },
        ));
    }
    all
}

/// Parts of a type of the same shape that is another record.
fn twins() -> Vec<Category> {
    let pair = [(PAIR, A, "pair: first part"), (PAIR, B, "pair: second part")];
    let twinned = SAME.into_iter().chain(pair).map(|(kind, word, name)| {
        Category::draft(
            ILL_TYPED,
            format!("{name} of a type of the same shape"),
            move |draft, random| {
                let Some(spot) = some_kind(draft, random, kind) else { return false };
                let Some(part) = draft.nodes[spot.node].target(word) else { return false };
                let of = twin(draft, draft.nodes[part].of, random);
                let node = draft.random_constant(of, random);
                draft.nodes[spot.node].words[word] = Term::Part(node);
                true
            },
        )
    });
    twinned.collect()
}
