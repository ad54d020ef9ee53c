//! Records that several words name: code 4 but for the patterns of IFs, which
//! several IFs may name; code 7 where an IF tests another type than theirs.

use super::category::Category;
use crate::answers::{ILL_TYPED, WRONG_NAMING};
use crate::draft::{Draft, Term};
use crate::generate::types::{other, twin};
use crate::random::Random;
use crate::records::{A, B, CONSTANT, D, DELAY, NEXT, PAIR_PATTERN};
use crate::survey::{alternatives, choices, expressions, reaches};

/// A word of a node.
type Place = (usize, usize);
/// A named node, and the node that names it.
type Named = (usize, usize);

pub fn categories() -> Vec<Category> {
    let mut all = vec![
        Category::draft(WRONG_NAMING, "pattern named by d and next", |draft, random| {
            let named = patterns(draft, &[NEXT]);
            name_again(draft, ds(draft), named, random)
        }),
        Category::draft(WRONG_NAMING, "pattern named by d and a pair pattern", |draft, random| {
            let named = patterns(draft, &[A, B]);
            name_again(draft, ds(draft), named, random)
        }),
        Category::draft(WRONG_NAMING, "pattern named by two nexts", |draft, random| {
            let named = patterns(draft, &[NEXT]);
            name_again(draft, nexts(draft), named, random)
        }),
        Category::draft(
            WRONG_NAMING,
            "pattern named by two words of pair patterns",
            |draft, random| {
                let named = patterns(draft, &[A, B]);
                name_again(draft, parts(draft), named, random)
            },
        ),
        Category::draft(
            WRONG_NAMING,
            "pattern named by next and a pair pattern",
            |draft, random| {
                let (places, words): (_, &[usize]) = match random.one_in(2) {
                    true => (nexts(draft), &[A, B]),
                    false => (parts(draft), &[NEXT]),
                };
                let named = patterns(draft, words);
                name_again(draft, places, named, random)
            },
        ),
        Category::draft(WRONG_NAMING, "expression named by two records", |draft, random| {
            let spots = expressions(draft);
            let places = spots.iter().map(|spot| (spot.holder, spot.word)).collect();
            let named = spots.iter().map(|spot| (spot.node, spot.holder)).collect();
            name_again(draft, places, named, random)
        }),
        Category::draft(WRONG_NAMING, "leaf named by two records", |draft, random| {
            let (places, named) = leaves(draft);
            name_again(draft, places, named, random)
        }),
    ];
    all.extend(tested());
    all
}

/// The words d of the IFs.
fn ds(draft: &Draft) -> Vec<Place> {
    choices(draft).into_iter().map(|choice| (choice, D)).collect()
}

/// The words next of the alternatives.
fn nexts(draft: &Draft) -> Vec<Place> {
    alternatives(draft).into_iter().map(|spot| (spot.node, NEXT)).collect()
}

/// The words of the pair patterns that name their parts.
fn parts(draft: &Draft) -> Vec<Place> {
    let pairs = alternatives(draft).into_iter().map(|spot| spot.node);
    pairs.filter(|&n| draft.kind(n) == PAIR_PATTERN).flat_map(|n| [(n, A), (n, B)]).collect()
}

/// The alternatives that one of some words names.
fn patterns(draft: &Draft, words: &[usize]) -> Vec<Named> {
    let spots = alternatives(draft).into_iter().filter(|spot| words.contains(&spot.word));
    spots.map(|spot| (spot.node, spot.holder)).collect()
}

/// The words that name leaves, or end a chain of them, and the named leaves.
fn leaves(draft: &Draft) -> (Vec<Place>, Vec<Named>) {
    let (mut places, mut named) = (Vec::new(), Vec::new());
    let holds = |node: usize| [CONSTANT, DELAY].contains(&draft.kind(node));
    for spot in expressions(draft).into_iter().filter(|spot| holds(spot.node)) {
        let mut place = (spot.node, B);
        while let Some(leaf) = draft.nodes[place.0].target(place.1) {
            places.push(place);
            named.push((leaf, place.0));
            place = (leaf, NEXT);
        }
        places.push(place);
    }
    (places, named)
}

/// Makes a word name a node besides the one that names it already.
fn name_again(
    draft: &mut Draft,
    places: Vec<Place>,
    named: Vec<Named>,
    random: &mut Random,
) -> bool {
    for _ in 0..8 {
        let (Some((node, word)), Some((target, holder))) =
            (random.pick(&places), random.pick(&named))
        else {
            return false;
        };
        let before = draft.nodes[node].words[word];
        if before == Term::Part(target) || reaches(draft, target, node) {
            continue;
        }
        draft.nodes[node].words[word] = Term::Part(target);
        if reaches(draft, 0, holder) {
            return true;
        }
        draft.nodes[node].words[word] = before;
    }
    false
}

/// IFs that share a pattern and test two types.
fn tested() -> Vec<Category> {
    type Other = fn(&mut Draft, usize, &mut Random) -> Option<usize>;
    let of = |name: &str, find: Other| {
        let name = format!("pattern shared by IFs that test {name}");
        Category::draft(ILL_TYPED, name, move |draft, random| {
            let patterns: Vec<usize> =
                choices(draft).into_iter().filter_map(|n| draft.nodes[n].target(D)).collect();
            let Some(pattern) = random.pick(&patterns) else { return false };
            let tested = draft.nodes[pattern].of;
            let Some(of) = find(draft, tested, random) else { return false };
            add_choice(draft, of, pattern, random)
        })
    };
    vec![
        of("two types", |draft, tested, random| other(draft, tested, random, &|_, _| true)),
        of("two types of one shape", |draft, tested, random| Some(twin(draft, tested, random))),
    ]
}

/// Puts an IF on a constant of a type, with a pattern that is there, in the
/// place of an expression, which becomes one of its branches.
fn add_choice(draft: &mut Draft, of: usize, pattern: usize, random: &mut Random) -> bool {
    let spots = expressions(draft);
    let Some(spot) = random.pick(&spots) else { return false };
    if spot.depth >= 40 {
        return false;
    }
    let tested = draft.random_constant(of, random);
    let branch = draft.random_constant(draft.nodes[spot.node].of, random);
    let choice = match random.one_in(2) {
        true => draft.choice(tested, pattern, spot.node, branch),
        false => draft.choice(tested, pattern, branch, spot.node),
    };
    draft.nodes[spot.holder].words[spot.word] = Term::Part(choice);
    true
}
