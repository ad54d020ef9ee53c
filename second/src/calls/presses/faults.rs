//! Presses with faults: in the sheet, the stimulus or the output leaf.

use super::case::Case;
use super::cases::Plain;
use crate::answers::{ILL_TYPED, NO_OUTPUT_LEAF, WRONG_STIMULUS};
use crate::calls::runs::faults::break_sheet;
use crate::faults::category::Category;
use crate::generate::mixed::for_faults;
use crate::layout::sheet;
use crate::one_cycle::faults::{other_cycles, raise_bytes};
use crate::one_leaf::faults::other_leaf;
use crate::random::Random;

/// A call with faults of some codes; the ways in which those from 8 on were
/// made. None if the circuit has no place for a fault.
pub fn broken(
    codes: &[u8],
    categories: &[Category],
    random: &mut Random,
) -> Option<(Case, Vec<&'static str>)> {
    let draft = for_faults(random);
    let whole = sheet(&draft, random);
    let plain = Plain::of(&whole)?;
    let mut case = plain.any("one call", whole, random);
    for &code in codes.iter().filter(|&&code| code <= ILL_TYPED) {
        (case.source, case.sheet) = break_sheet(&draft, code, categories, random)?;
    }
    let mut ways = Vec::new();
    // The stimulus gets its length first, and then bytes that are too great.
    for &code in codes.iter().filter(|&&code| code > ILL_TYPED) {
        let way = match code {
            WRONG_STIMULUS => {
                let (way, stimulus) = other_cycles(&plain.ground, random)?;
                case.stimulus = stimulus;
                way
            }
            NO_OUTPUT_LEAF => {
                let (way, leaf) = other_leaf(plain.ground.items, random)?;
                case.leaf = leaf;
                way
            }
            _ => raise_bytes(&mut case.stimulus, &plain.ground, random)?,
        };
        case.source = format!("{}; {way}", case.source);
        ways.push(way);
    }
    Some((case, ways))
}
