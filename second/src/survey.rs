//! Finds places in a draft: expressions with their depth and scope, and
//! alternatives of patterns.

use crate::draft::{Draft, Term};
use crate::random::Random;
use crate::records::{
    words, Sort, Word, A, B, CONSTANT, D, FEEDBACK, IF, LET, NAME, NEXT, PAIR_PATTERN,
};

/// An expression and where it stands.
#[derive(Clone, Copy, Debug)]
pub struct Spot {
    pub node: usize,
    /// The node and word that name it.
    pub holder: usize,
    pub word: usize,
    pub depth: usize,
    pub nesting: usize,
    /// How many names are in scope.
    pub scope: usize,
}

/// The expressions below a spot, itself first.
pub fn below(draft: &Draft, top: Spot) -> Vec<Spot> {
    let mut spots = vec![top];
    let mut k = 0;
    while k < spots.len() {
        let spot = spots[k];
        let kind = draft.kind(spot.node);
        let asked = words(kind).unwrap_or([Word::Zero; 5]);
        for word in (NEXT..=D).filter(|w| asked[w - NEXT] == Word::Part(Sort::Expression)) {
            let Some(node) = draft.nodes[spot.node].target(word) else { continue };
            let named = kind == FEEDBACK || (kind == LET && word == B);
            let defining = kind == FEEDBACK && word == B;
            spots.push(Spot {
                node,
                holder: spot.node,
                word,
                depth: spot.depth + 1,
                nesting: spot.nesting + usize::from(defining),
                scope: spot.scope + usize::from(named),
            });
        }
        k += 1;
    }
    spots
}

/// All expressions of a draft, the root first.
pub fn expressions(draft: &Draft) -> Vec<Spot> {
    let root = Spot { node: draft.root(), holder: 0, word: B, depth: 1, nesting: 0, scope: 1 };
    below(draft, root)
}

/// A random expression that passes a test.
pub fn some(draft: &Draft, random: &mut Random, passes: &dyn Fn(&Spot) -> bool) -> Option<Spot> {
    let spots: Vec<Spot> = expressions(draft).into_iter().filter(passes).collect();
    random.pick(&spots)
}

/// A random expression of a kind.
pub fn some_kind(draft: &Draft, random: &mut Random, kind: u16) -> Option<Spot> {
    some(draft, random, &|spot| draft.kind(spot.node) == kind)
}

/// A random name or constant below a spot.
pub fn some_closing(draft: &Draft, top: Spot, random: &mut Random) -> Option<Spot> {
    let closes = |spot: &Spot| [NAME, CONSTANT].contains(&draft.kind(spot.node));
    let spots: Vec<Spot> = below(draft, top).into_iter().filter(closes).collect();
    random.pick(&spots)
}

/// Whether a node is another one or is named from it on.
pub fn reaches(draft: &Draft, from: usize, to: usize) -> bool {
    let mut seen = vec![false; draft.nodes.len()];
    let mut open = vec![from];
    while let Some(node) = open.pop() {
        if node == to {
            return true;
        }
        if !std::mem::replace(&mut seen[node], true) {
            let parts = draft.nodes[node].words.into_iter().filter_map(|term| match term {
                Term::Part(part) => Some(part),
                _ => None,
            });
            open.extend(parts);
        }
    }
    false
}

/// An alternative of a pattern and where it stands.
#[derive(Clone, Copy, Debug)]
pub struct Alternative {
    pub node: usize,
    /// The node and word that name it.
    pub holder: usize,
    pub word: usize,
    /// The IF that it belongs to.
    pub choice: usize,
    /// In how many pair patterns it lies.
    pub level: usize,
}

/// All alternatives below an IF, those of its own chain and nested ones.
pub fn alternatives_of(draft: &Draft, choice: usize) -> Vec<Alternative> {
    let mut found = Vec::new();
    let mut open = vec![(choice, D, 0)];
    while let Some((holder, word, level)) = open.pop() {
        let Some(node) = draft.nodes[holder].target(word) else { continue };
        found.push(Alternative { node, holder, word, choice, level });
        open.push((node, NEXT, level));
        if draft.kind(node) == PAIR_PATTERN {
            open.push((node, A, level + 1));
            open.push((node, B, level + 1));
        }
    }
    found
}

/// All IFs of a draft.
pub fn choices(draft: &Draft) -> Vec<usize> {
    let nodes = expressions(draft).into_iter().map(|spot| spot.node);
    nodes.filter(|&node| draft.kind(node) == IF).collect()
}

/// All alternatives of a draft, those of a shared pattern once for each IF.
pub fn alternatives(draft: &Draft) -> Vec<Alternative> {
    choices(draft).into_iter().flat_map(|choice| alternatives_of(draft, choice)).collect()
}
