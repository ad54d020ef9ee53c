//! Runs to report: that keep every rule, and that are refused.

use super::shifts::{doubled, shifts};
use crate::calls::runs::case::Case;
use crate::calls::runs::cases::{good, Frame};
use crate::calls::runs::faults::broken;
use crate::calls::runs::program::accepted;
use crate::draft::Draft;
use crate::faults::category::Category;
use crate::layout::sheet;
use crate::random::Random;
use crate::simulator::ready;
use crate::stimulus::LONGEST_STIMULUS;

/// The most nodes that the cycles of one run evaluate, about.
const WORK: usize = 2_000_000;

/// A run on any sheet: of no cycles or at most one in four of sixteen.
pub fn any(random: &mut Random) -> Option<Case> {
    let mut case = accepted(random)?;
    let leaves = Frame::of(&case.sheet)?.counts.len();
    match random.below(16) {
        0 | 1 => case.stimulus.clear(),
        2 | 3 => case.stimulus.truncate(leaves),
        _ => {}
    }
    Some(case)
}

/// A run of a circuit with many output leaves or few, of any number of cycles.
pub fn shifting(random: &mut Random) -> Option<Case> {
    let leaves = match random.below(8) {
        0 | 1 => 64,
        2 => random.range(9, 63),
        3 | 4 => 1,
        _ => random.range(2, 8),
    };
    let draft = shifts(leaves, random);
    let cycles = match random.below(16) {
        0 => 0,
        1 => 1,
        2 => 2,
        3..=6 => random.range(3, 12),
        7..=9 => random.range(13, 120),
        10..=12 => random.range(121, 1_200),
        13 | 14 => random.range(1_201, 12_000),
        _ => LONGEST_STIMULUS,
    };
    of_draft("shifting", &draft, cycles, WORK / draft.nodes.len(), random)
}

/// The longest outputs that there can be: 65,535 cycles of 64 leaves.
pub fn longest(random: &mut Random) -> Option<Case> {
    let draft = doubled(random);
    of_draft("longest", &draft, LONGEST_STIMULUS, LONGEST_STIMULUS, random)
}

/// A run of so many cycles, or as many as there can be.
fn of_draft(
    source: &str,
    draft: &Draft,
    cycles: usize,
    most: usize,
    random: &mut Random,
) -> Option<Case> {
    let sheet = sheet(draft, random);
    let frame = Frame::of(&sheet)?;
    let cycles = cycles.min(most).min(LONGEST_STIMULUS / frame.counts.len());
    Some(good(source, sheet, &frame, cycles, random))
}

/// A run that is refused by a code.
pub fn refused(code: u8, categories: &[Category], random: &mut Random) -> Case {
    loop {
        let Some((case, _)) = broken(&[code], categories, random) else { continue };
        let refusal = ready(&case.sheet, &case.stimulus).err();
        if refusal.is_some_and(|answer| answer.code == code) {
            return case;
        }
    }
}
