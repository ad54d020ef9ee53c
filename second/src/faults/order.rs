//! Several broken type rules in one sheet, so that their order decides the
//! place: code 7.

use super::category::Category;
use super::patterns::break_pattern;
use super::typing::{break_closing, lengthen, mismatch, unpair};
use crate::answers::ILL_TYPED;
use crate::draft::Draft;
use crate::random::Random;
use crate::records::{A, B, C, CONSTANT, DELAY, FEEDBACK, IF, LET, NAME, PAIR};
use crate::survey::{below, expressions, some, some_closing, some_kind, Spot};

pub fn categories() -> Vec<Category> {
    let mut all = vec![
        Category::draft(ILL_TYPED, "order: several names and constants", |draft, random| {
            let closes = |draft: &Draft, s: &Spot| [NAME, CONSTANT].contains(&draft.kind(s.node));
            for _ in 0..random.range(2, 5) {
                let found = some(draft, random, &|spot| closes(draft, spot));
                let Some(spot) = found else { return false };
                break_closing(draft, spot, random);
            }
            true
        }),
        Category::draft(ILL_TYPED, "order: several wholes", |draft, random| {
            let mut done = 0;
            for _ in 0..12 {
                let spots = expressions(draft);
                let Some(spot) = random.pick(&spots) else { return false };
                done += usize::from(break_whole(draft, spot, random));
            }
            done >= 2
        }),
    ];
    for (kind, name) in [(PAIR, "pair"), (FEEDBACK, "feedback"), (IF, "IF"), (DELAY, "delay")] {
        let name = format!("order: {name} and inside its parts");
        all.push(Category::draft(ILL_TYPED, name, move |draft, random| {
            let Some(spot) = some_kind(draft, random, kind) else { return false };
            break_whole(draft, spot, random) && break_part(draft, spot, random, None)
        }));
    }
    all.extend(patterns());
    all.extend(two_parts());
    all
}

/// Breaks the rule of a whole, its parts each sound.
fn break_whole(draft: &mut Draft, spot: Spot, random: &mut Random) -> bool {
    match draft.kind(spot.node) {
        PAIR => {
            let word = if random.one_in(2) { A } else { B };
            unpair(draft, spot, word, random)
        }
        FEEDBACK => mismatch(draft, spot, B, random),
        IF if random.one_in(2) => break_pattern(draft, spot.node, random),
        IF => {
            let word = if random.one_in(2) { B } else { C };
            mismatch(draft, spot, word, random)
        }
        DELAY if random.one_in(2) => {
            lengthen(draft, spot.node, 1);
            true
        }
        DELAY => mismatch(draft, spot, C, random),
        _ => false,
    }
}

/// Breaks a name or constant in a part of a spot, in a given word if any.
fn break_part(draft: &mut Draft, spot: Spot, random: &mut Random, word: Option<usize>) -> bool {
    let is_part = |s: &Spot| s.holder == spot.node && word.is_none_or(|w| w == s.word);
    let tops: Vec<Spot> = below(draft, spot).into_iter().skip(1).filter(is_part).collect();
    let Some(top) = random.pick(&tops) else { return false };
    let Some(closing) = some_closing(draft, top, random) else { return false };
    break_closing(draft, closing, random);
    true
}

/// An IF's pattern and one of its parts.
fn patterns() -> Vec<Category> {
    let of = |word: usize, name: &str| {
        let name = format!("order: pattern and {name} of one IF");
        Category::draft(ILL_TYPED, name, move |draft, random| {
            let Some(spot) = some_kind(draft, random, IF) else { return false };
            break_pattern(draft, spot.node, random) && break_part(draft, spot, random, Some(word))
        })
    };
    vec![of(A, "tested part"), of(B, "then"), of(C, "else")]
}

/// Two parts of one expression.
fn two_parts() -> Vec<Category> {
    let of = |kind: u16, one: usize, two: usize, name: &str| {
        Category::draft(ILL_TYPED, format!("order: {name}"), move |draft, random| {
            let Some(spot) = some_kind(draft, random, kind) else { return false };
            break_part(draft, spot, random, Some(one)) && break_part(draft, spot, random, Some(two))
        })
    };
    vec![
        of(PAIR, A, B, "both parts of a pair"),
        of(LET, A, B, "both parts of a LET"),
        of(FEEDBACK, B, C, "both parts of a feedback"),
        of(IF, A, B, "tested part and then"),
        of(IF, A, C, "tested part and else"),
        of(IF, B, C, "then and else"),
    ]
}
