//! Calls with faults: in the sheet, the stimulus or the slice's length, and
//! sheets that code 22 refuses.

use super::cases::{call, ground};
use super::fitting::{fitted, unfit, WAYS};
use super::remaining::NOT_FOR_SETS;
use crate::answers::ILL_TYPED;
use crate::calls::runs::faults::break_sheet;
use crate::faults::category::Category;
use crate::generate::mixed::for_faults;
use crate::layout::sheet;
use crate::one_cycle::faults::break_call;
use crate::one_cycle::kind::Case;
use crate::random::Random;

/// A call with faults of some codes; the ways in which those after 7 were made.
/// None if the circuit has no place for a fault. Where the sheet is refused by
/// the check, 22 may apply to it too.
pub fn broken(
    codes: &[u8],
    categories: &[Category],
    random: &mut Random,
) -> Option<(Case, Vec<&'static str>)> {
    let mut ways = Vec::new();
    let any = for_faults(random);
    let of_check = |code: &&u8| **code <= ILL_TYPED;
    let draft = if codes.contains(&NOT_FOR_SETS) {
        let way = random.pick(&WAYS)?;
        ways.push(way);
        unfit(any, way, random)?
    } else if codes.iter().any(|code| of_check(&code)) && random.one_in(2) {
        any
    } else {
        fitted(any, random)
    };
    let whole = sheet(&draft, random);
    let ground = ground(&whole)?;
    let mut case = call(&ground, "one call", whole, random);
    for &code in codes.iter().filter(of_check) {
        (case.source, case.sheet) = break_sheet(&draft, code, categories, random)?;
    }
    let of_call = |code: &&u8| !of_check(code) && **code != NOT_FOR_SETS;
    for &code in codes.iter().filter(of_call) {
        ways.push(break_call(&mut case, code, &ground, random)?);
    }
    Some((case, ways))
}
