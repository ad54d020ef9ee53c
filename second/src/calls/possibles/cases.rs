//! Calls that keep every rule but, at times, that of code 22.

use crate::accepted::Circuit;
use crate::one_cycle::cases::Ground;
use crate::one_cycle::kind::Case;
use crate::random::Random;

/// What a call needs to know of an accepted sheet: the items are the output
/// leaves. None if the sheet is refused.
pub fn ground(sheet: &[u8]) -> Option<Ground> {
    let circuit = Circuit::read(sheet).ok()?;
    let counts = circuit.counts(circuit.input());
    Some(Ground { counts, items: circuit.width(circuit.root()) })
}

/// A call with an input of any kind, or one of which half of the leaves are
/// undefined, whatever their counts.
pub fn call(ground: &Ground, source: &str, sheet: Vec<u8>, random: &mut Random) -> Case {
    let mut case = ground.good(source, sheet, random);
    if random.one_in(2) {
        case.stimulus.iter_mut().filter(|_| random.one_in(2)).for_each(|leaf| *leaf = 0);
    }
    case
}
