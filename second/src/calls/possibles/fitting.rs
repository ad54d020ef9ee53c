//! Circuits that the call takes, made of any: without feedbacks, and without
//! flat types of more than 64 constructors. And circuits that it does not take.

use super::remaining::MOST_CONSTRUCTORS;
use crate::draft::{Draft, Term};
use crate::random::Random;
use crate::records::{A, B, C, CONSTANT, CONSTRUCTOR, DELAY, FEEDBACK, FLAT, KIND, LET, NEXT};

pub const FEEDBACKS: &str = "22: a feedback";
pub const JUST_ABOVE: &str = "22: a flat type of 65 constructors";
pub const ABOVE: &str = "22: a flat type of more than 65 constructors";
pub const UNUSED: &str = "22: a flat type above 64 that nothing uses";
pub const BOTH: &str = "22: a feedback and a flat type above 64";

/// The ways to be refused by 22.
pub const WAYS: [&str; 5] = [FEEDBACKS, JUST_ABOVE, ABOVE, UNUSED, BOTH];

/// The circuit without what 22 refuses.
pub fn fitted(mut draft: Draft, random: &mut Random) -> Draft {
    unfed(&mut draft, random);
    narrowed(&mut draft, random);
    draft
}

/// LET x = (LET x = a constant IN the defining part) IN the body, for each
/// feedback x: names have the same numbers in both parts.
fn unfed(draft: &mut Draft, random: &mut Random) {
    for node in 0..draft.nodes.len() {
        if draft.kind(node) != FEEDBACK {
            continue;
        }
        let targets = [A, B, C].map(|word| draft.nodes[node].target(word));
        let [Some(of), Some(defining), Some(body)] = targets else { continue };
        let constant = draft.random_constant(of, random);
        let inner = draft.bind(constant, defining);
        let words = &mut draft.nodes[node].words;
        words[KIND] = Term::Number(LET);
        [words[A], words[B], words[C]] = [Term::Part(inner), Term::Part(body), Term::Number(0)];
    }
}

/// Gives flat types above 64 constructors fewer, most of them 64, and the
/// constructors in patterns and leaves numbers that fit.
fn narrowed(draft: &mut Draft, random: &mut Random) {
    let most = usize::from(MOST_CONSTRUCTORS);
    for node in 0..draft.nodes.len() {
        if draft.kind(node) == FLAT && draft.nodes[node].number(A) > MOST_CONSTRUCTORS {
            let count = match random.below(4) {
                0 => random.range(1, most),
                1 => most - 1,
                _ => most,
            };
            draft.nodes[node].words[A] = Term::Number(count as u16);
        }
    }
    for node in 0..draft.nodes.len() {
        let Some(of) = draft.nodes[node].target(A) else { continue };
        match draft.kind(node) {
            CONSTRUCTOR => {
                let count = draft.nodes[of].number(A);
                if draft.nodes[node].number(B) > count {
                    let number = random.range(1, usize::from(count)) as u16;
                    draft.nodes[node].words[B] = Term::Number(number);
                }
            }
            CONSTANT | DELAY => leaves_fitted(draft, node, of, random),
            _ => {}
        }
    }
}

/// Gives the leaves of a constant or a delay values of its type.
fn leaves_fitted(draft: &mut Draft, node: usize, of: usize, random: &mut Random) {
    let mut next = draft.nodes[node].target(B);
    for count in draft.counts(of) {
        let Some(leaf) = next else { return };
        if draft.nodes[leaf].number(A) > count {
            let value = random.below(usize::from(count) + 1) as u16;
            draft.nodes[leaf].words[A] = Term::Number(value);
        }
        next = draft.nodes[leaf].target(NEXT);
    }
}

/// A circuit that 22 refuses in one of the ways, made of any; none if it has no
/// feedback and one is asked for.
pub fn unfit(mut draft: Draft, way: &str, random: &mut Random) -> Option<Draft> {
    let fed_back = way == FEEDBACKS || way == BOTH;
    if fed_back && !(0..draft.nodes.len()).any(|node| draft.kind(node) == FEEDBACK) {
        return None;
    }
    if !fed_back {
        unfed(&mut draft, random);
    }
    narrowed(&mut draft, random);
    let just_above = MOST_CONSTRUCTORS + 1;
    let any_above = random.range(usize::from(just_above), 255) as u16;
    match way {
        FEEDBACKS => {}
        JUST_ABOVE => widened(&mut draft, just_above, random)?,
        ABOVE => widened(&mut draft, any_above.max(just_above + 1), random)?,
        BOTH if random.one_in(2) => widened(&mut draft, any_above, random)?,
        _ => {
            let added = draft.loose_flat(any_above);
            let at = random.below(draft.chain.len() + 1);
            draft.chain.insert(at, added);
        }
    }
    Some(draft)
}

/// Gives a flat type so many constructors, at least as many as it has.
fn widened(draft: &mut Draft, count: u16, random: &mut Random) -> Option<()> {
    let flats: Vec<usize> =
        draft.chain.iter().copied().filter(|&of| draft.kind(of) == FLAT).collect();
    let flat = random.pick(&flats)?;
    draft.nodes[flat].words[A] = Term::Number(count);
    Some(())
}
