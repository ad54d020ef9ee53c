//! What is promised of the sets of a call: in every way of filling undefined
//! leaves the ordinary outputs lie in them. It is tried by filling.

use super::archive::possible;
use super::fillings::Fillable;
use super::sets::{Set, Sets};
use crate::answers::Answer;
use crate::calls::previews::archive::preview;
use crate::one_cycle::kind::Case;
use crate::random::Random;
use crate::rule::Rule;
use crate::values::Value;

/// So many ways to fill all gaps are tried at most through the archive, and so
/// many to fill some of them.
const WAYS: usize = 64;
const SOME: usize = 8;

/// A prime that divides no product of constructor counts: its multiples come to
/// every way, and the first of them lie far apart.
const SPREAD: usize = 1_000_003;

const RULES: [Rule; 2] = [Rule::Agreed, Rule::Earlier];

/// Whether each output leaf lies in its set; an undefined one does only where
/// it may stay undefined.
fn lie_in(outputs: &[u8], sets: &[Set], may_be_undefined: bool) -> bool {
    let lies = |(leaf, set): (&u8, &Set)| match leaf {
        0 => may_be_undefined,
        leaf => set.holds(*leaf),
    };
    outputs.iter().zip(sets).all(lies)
}

/// Whether each output leaf that is defined is alone in its set.
fn alone(outputs: &[u8], sets: &[Set]) -> bool {
    let mut both = outputs.iter().zip(sets);
    both.all(|(leaf, set)| *leaf == 0 || *set == Set::only(*leaf))
}

fn within(smaller: &[Set], greater: &[Set]) -> bool {
    smaller.iter().zip(greater).all(|(smaller, greater)| smaller.is_within(*greater))
}

/// Some constructors of a gap: all of few, else the first, some and the last.
fn some_of(count: u8) -> Vec<u8> {
    match count {
        0..=6 => (1..=count).collect(),
        _ => vec![1, 2, count / 2, count - 1, count],
    }
}

/// What does not hold of the second implementation's sets of a call, whose gaps
/// are filled in every way.
pub fn not_kept_by_second(case: &Case) -> Option<String> {
    let mut call = Fillable::of(&case.sheet, &case.stimulus)?;
    let sets = call.sets();
    if !looked(&call).iter().all(|outputs| alone(outputs, &sets)) {
        return Some("a leaf that the cycle defines is not alone in its set".to_string());
    }
    for gap in 0..call.gaps.len() {
        for value in some_of(call.gaps[gap].count) {
            call.put(gap, value);
            if !kept_in_part(&call, &sets) {
                return Some(format!("gap {gap} filled with {value} breaks the promise"));
            }
        }
        call.put(gap, 0);
    }
    if !kept_one_by_one(&mut call, &mut Random::new(case.sheet.len() as u64)) {
        return Some("filling one leaf more breaks the promise".to_string());
    }
    let way = (0..call.ways()).find(|way| {
        call.fill(*way);
        !kept_in_whole(&call, &sets)
    });
    way.map(|way| format!("way {way} of filling all leaves breaks the promise"))
}

/// The outputs of the cycle by both rules for an undecided IF.
fn looked(call: &Fillable) -> [Value; 2] {
    RULES.map(|rule| call.outputs(rule))
}

/// Whether the promise holds while some gaps are filled, one after the other.
fn kept_one_by_one(call: &mut Fillable, random: &mut Random) -> bool {
    (0..SOME.min(call.gaps.len())).all(|_| {
        let gap = random.below(call.gaps.len());
        if call.held(gap) != 0 {
            return true;
        }
        let before = call.sets();
        call.put(gap, random.range(1, usize::from(call.gaps[gap].count)) as u8);
        kept_in_part(call, &before)
    })
}

/// Whether all outputs lie in the sets, and alone in those of the filled call.
fn kept_in_whole(call: &Fillable, sets: &[Set]) -> bool {
    let filled = call.sets();
    looked(call).iter().all(|outputs| {
        let only: Sets = outputs.iter().map(|leaf| Set::only(*leaf)).collect();
        lie_in(outputs, sets, false) && filled == only
    })
}

/// Whether the sets with some gaps filled are within those before, and the
/// outputs by both rules in both.
fn kept_in_part(call: &Fillable, before: &[Set]) -> bool {
    let sets = call.sets();
    within(&sets, before)
        && looked(call).iter().all(|outputs| lie_in(outputs, before, true) && alone(outputs, &sets))
}

/// What the archive gives for a call, as it is filled now: what it previews, and
/// how many constructors it counts. None where it refuses one of them.
fn given(call: &Fillable, leaves: usize) -> Option<(Value, Vec<u8>)> {
    let accepted = Answer::accepted(0).packed();
    let (mut outputs, mut counts) = (vec![0; leaves], vec![0; leaves]);
    let both = preview(&call.sheet, &call.input, &mut outputs) == accepted
        && possible(&call.sheet, &call.input, &mut counts) == accepted;
    both.then_some((outputs, counts))
}

/// What does not hold of the archive's counts of a call, of which the second
/// implementation's sets have as many constructors.
pub fn not_kept_by_archive(case: &Case, counts: &[u8]) -> Option<String> {
    let mut call = Fillable::of(&case.sheet, &case.stimulus)?;
    let sets = call.sets();
    if !sets.iter().map(|set| set.size()).eq(counts.iter().copied()) {
        return None;
    }
    let leaves = counts.len();
    for gap in 0..call.gaps.len().min(SOME) {
        call.put(gap, call.gaps[gap].count);
        let fewer = given(&call, leaves).is_some_and(|(outputs, fewer)| {
            fewer.iter().zip(counts).all(|(fewer, count)| fewer <= count)
                && lie_in(&outputs, &sets, true)
        });
        if !fewer {
            return Some(format!("gap {gap} filled, the archive breaks the promise"));
        }
        call.put(gap, 0);
    }
    let ways = call.ways();
    for way in (0..ways.min(WAYS)).map(|k| k * SPREAD % ways) {
        call.fill(way);
        let kept = given(&call, leaves).is_some_and(|(outputs, counts)| {
            lie_in(&outputs, &sets, false) && counts.iter().all(|count| *count == 1)
        });
        if !kept {
            return Some(format!(
                "way {way} of filling all leaves, the archive breaks the promise"
            ));
        }
    }
    None
}
