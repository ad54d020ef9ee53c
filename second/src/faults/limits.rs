//! Pair types with the same parts, and limits passed: codes 5 and 6.

use super::category::Category;
use crate::answers::{TOO_DEEP, WRONG_TYPE};
use crate::draft::Draft;
use crate::generate::boundary::{deepen, nest, widen};
use crate::generate::types;
use crate::random::Random;

pub fn categories() -> Vec<Category> {
    let mut all = pairs();
    all.extend(leaves());
    all.extend(depth());
    all
}

/// Puts a second pair type with the parts of another one into the chain.
fn repeat(draft: &mut Draft, random: &mut Random) -> bool {
    let is_pair = |&k: &usize| draft.parts(draft.chain[k]).is_some();
    let pairs: Vec<usize> = (0..draft.chain.len()).filter(is_pair).collect();
    let Some(k) = random.pick(&pairs) else { return false };
    let Some((first, second)) = draft.parts(draft.chain[k]) else { return false };
    let node = draft.loose_pair_type(first, second);
    let at = random.range(k + 1, draft.chain.len());
    draft.chain.insert(at, node);
    true
}

fn pairs() -> Vec<Category> {
    vec![
        Category::draft(WRONG_TYPE, "pair type with the parts of a lower one", repeat),
        Category::draft(
            WRONG_TYPE,
            "two pair types with the parts of lower ones",
            |draft, random| repeat(draft, random) && repeat(draft, random),
        ),
        Category::draft(WRONG_TYPE, "parts of a lower one, and 65 leaves", |draft, random| {
            let before = random.one_in(2);
            (!before || repeat(draft, random))
                && widen(draft, 65, random) > 0
                && (before || repeat(draft, random))
        }),
    ]
}

fn leaves() -> Vec<Category> {
    vec![
        Category::draft(WRONG_TYPE, "65 leaves", |draft, random| widen(draft, 65, random) > 0),
        Category::draft(WRONG_TYPE, "66 to 128 leaves", |draft, random| {
            let leaves = random.range(66, 128);
            widen(draft, leaves, random) > 0
        }),
        Category::draft(WRONG_TYPE, "leaves doubled past 64", |draft, random| {
            let times = random.range(7, 80);
            types::doubling(draft, times) > 0
        }),
        Category::draft(WRONG_TYPE, "two types over 64 leaves", |draft, random| {
            widen(draft, 65, random) > 0 && widen(draft, 70, random) > 0
        }),
    ]
}

fn depth() -> Vec<Category> {
    vec![
        Category::draft(TOO_DEEP, "depth 65", |draft, random| deepen(draft, 65, random)),
        Category::draft(TOO_DEEP, "depth over 65", |draft, random| {
            let depth = random.range(66, 200);
            deepen(draft, depth, random)
        }),
        Category::draft(TOO_DEEP, "two branches too deep", |draft, random| {
            deepen(draft, 65, random) && deepen(draft, 70, random)
        }),
        Category::draft(TOO_DEEP, "in four feedbacks", |draft, random| nest(draft, 4, random)),
        Category::draft(TOO_DEEP, "in more than four feedbacks", |draft, random| {
            let nesting = random.range(5, 12);
            nest(draft, nesting, random)
        }),
        Category::draft(TOO_DEEP, "in four feedbacks, and too deep", |draft, random| {
            nest(draft, 4, random) && deepen(draft, 65, random)
        }),
    ]
}
