//! Alternatives of a type other than the tested one: code 7 at the IF.

use super::category::Category;
use crate::answers::ILL_TYPED;
use crate::draft::{Draft, Term};
use crate::generate::patterns::full;
use crate::generate::types::{other, twin};
use crate::random::Random;
use crate::records::{D, FLAT, NEXT, PAIR_TYPE};
use crate::survey::{alternatives, alternatives_of, Alternative};

/// Where an alternative stands.
#[derive(Clone, Copy)]
enum Where {
    First,
    Later,
    Nested,
}

/// What stands there instead.
#[derive(Clone, Copy)]
enum Wrong {
    Whole,
    Constructor,
    PairOnFlat,
    PairOfOthers,
    WholeTwin,
    FullTwin,
}

const PLACES: [(Where, &str); 3] = [
    (Where::First, "first alternative"),
    (Where::Later, "later alternative"),
    (Where::Nested, "part of a pair pattern"),
];

const WRONGS: [(Wrong, &str); 6] = [
    (Wrong::Whole, "whole, another type"),
    (Wrong::Constructor, "constructor, another type"),
    (Wrong::PairOnFlat, "pair pattern on a flat type"),
    (Wrong::PairOfOthers, "pair pattern of another type"),
    (Wrong::WholeTwin, "whole, same shape"),
    (Wrong::FullTwin, "down to the leaves, same shape"),
];

pub fn categories() -> Vec<Category> {
    let mut all = Vec::new();
    for (place, place_name) in PLACES {
        for (wrong, wrong_name) in WRONGS {
            let name = format!("pattern: {place_name}: {wrong_name}");
            all.push(Category::draft(ILL_TYPED, name, move |draft, random| {
                let stands = |spot: &Alternative| match place {
                    Where::First => spot.level == 0 && spot.word == D,
                    Where::Later => spot.level == 0 && spot.word == NEXT,
                    Where::Nested => spot.level > 0,
                };
                let spots: Vec<Alternative> =
                    alternatives(draft).into_iter().filter(stands).collect();
                random.pick(&spots).is_some_and(|spot| put(draft, spot, wrong, random))
            }));
        }
    }
    all
}

/// Breaks some alternative of an IF.
pub fn break_pattern(draft: &mut Draft, choice: usize, random: &mut Random) -> bool {
    let spots = alternatives_of(draft, choice);
    let wrong = random.pick(&[Wrong::Whole, Wrong::Constructor, Wrong::WholeTwin]);
    match (random.pick(&spots), wrong) {
        (Some(spot), Some(wrong)) => put(draft, spot, wrong, random),
        _ => false,
    }
}

/// Puts a wrong alternative in the place of one, with the same next, for all
/// that name it.
fn put(draft: &mut Draft, spot: Alternative, wrong: Wrong, random: &mut Random) -> bool {
    let tested = draft.nodes[spot.node].of;
    let Some(node) = wrong_pattern(draft, tested, wrong, random) else { return false };
    let next = draft.nodes[spot.node].words[NEXT];
    for word in draft.nodes.iter_mut().flat_map(|other| &mut other.words) {
        if *word == Term::Part(spot.node) {
            *word = Term::Part(node);
        }
    }
    draft.nodes[node].words[NEXT] = next;
    true
}

/// A pattern that does not have the tested type.
fn wrong_pattern(
    draft: &mut Draft,
    tested: usize,
    wrong: Wrong,
    random: &mut Random,
) -> Option<usize> {
    match wrong {
        Wrong::Whole => {
            let of = other(draft, tested, random, &|_, _| true)?;
            Some(draft.whole(of))
        }
        Wrong::Constructor => {
            let of = other(draft, tested, random, &|draft, of| draft.kind(of) == FLAT)?;
            Some(full(draft, of, random))
        }
        Wrong::PairOnFlat => {
            if draft.kind(tested) != FLAT {
                return None;
            }
            let first = draft.whole(tested);
            let second = draft.whole(tested);
            Some(draft.pair_pattern(first, second, tested))
        }
        Wrong::PairOfOthers => {
            let of = other(draft, tested, random, &|draft, of| draft.kind(of) == PAIR_TYPE)?;
            let (first, second) = draft.parts(of)?;
            let first = draft.whole(first);
            let second = draft.whole(second);
            Some(draft.pair_pattern(first, second, of))
        }
        Wrong::WholeTwin => {
            let of = twin(draft, tested, random);
            Some(draft.whole(of))
        }
        Wrong::FullTwin => {
            let of = twin(draft, tested, random);
            Some(full(draft, of, random))
        }
    }
}
