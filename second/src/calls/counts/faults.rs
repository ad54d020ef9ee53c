//! Counts with faults: in the sheet, the number of inputs or the output leaf.

use super::case::Case;
use super::cases::Plain;
use super::counting::{MOST_INPUTS, TOO_MANY_INPUTS};
use super::folds::fold;
use super::products::{counts_over, inputs_of, with_ones, ANY, WAYS};
use crate::answers::{ILL_TYPED, NO_OUTPUT_LEAF};
use crate::calls::runs::faults::break_sheet;
use crate::draft::Draft;
use crate::faults::category::Category;
use crate::generate::mixed::for_faults;
use crate::layout::sheet;
use crate::one_leaf::faults::other_leaf;
use crate::random::Random;

/// The most evaluations of records that a count may take if its faults are none.
const EFFORT: usize = 200_000;

/// A call with faults of some codes; the ways in which those from 20 on were
/// made. None if the circuit has no place for a fault.
pub fn broken(
    codes: &[u8],
    categories: &[Category],
    random: &mut Random,
) -> Option<(Case, Vec<&'static str>)> {
    let mut ways = Vec::new();
    let over = codes.contains(&TOO_MANY_INPUTS);
    let draft = match over {
        true => {
            let way = random.pick(&WAYS)?;
            ways.push(way);
            over_the_limit(way, random)?
        }
        false => for_faults(random),
    };
    let whole = sheet(&draft, random);
    let plain = Plain::of(&whole).filter(|plain| match over {
        true => plain.inputs > MOST_INPUTS,
        false => plain.inputs <= MOST_INPUTS && plain.effort <= EFFORT,
    })?;
    let mut case = plain.any("one call", whole, random);
    for &code in codes.iter().filter(|&&code| code <= ILL_TYPED) {
        (case.source, case.sheet) = break_sheet(&draft, code, categories, random)?;
    }
    if codes.contains(&NO_OUTPUT_LEAF) {
        let (way, leaf) = other_leaf(plain.leaves, random)?;
        case.leaf = leaf;
        ways.push(way);
    }
    for way in &ways {
        case.source = format!("{}; {way}", case.source);
    }
    Some((case, ways))
}

/// A circuit with more inputs than are counted, in one of the ways.
fn over_the_limit(way: &str, random: &mut Random) -> Option<Draft> {
    if way == ANY {
        let mut drafts = (0..40).map(|_| for_faults(random));
        return drafts.find(|draft| inputs_of(draft) > MOST_INPUTS);
    }
    let counts = counts_over(way, random)?;
    Some(fold(&with_ones(counts, random), 8, random))
}
