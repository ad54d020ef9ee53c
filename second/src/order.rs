//! The order of sheets that differ in delay leaves alone, and leaves lowered
//! at random.

use crate::accepted::Circuit;
use crate::random::Random;
use crate::records::{bytes, A};
use crate::values::at_or_below;

/// Whether two accepted sheets differ in delay leaves alone.
pub fn only_delays_differ(first: &[u8], second: &[u8]) -> bool {
    let without = |sheet: &[u8]| {
        let circuit = Circuit::read(sheet).ok()?;
        let mut records = circuit.records.clone();
        circuit.delay_leaves().into_iter().for_each(|leaf| records[leaf][A] = 0);
        Some(records)
    };
    let first = without(first);
    first.is_some() && first == without(second)
}

/// What the delays of an accepted sheet hold, leaf by leaf in one order.
pub fn delay_values(sheet: &[u8]) -> Vec<u8> {
    let Ok(circuit) = Circuit::read(sheet) else { return Vec::new() };
    circuit.delay_leaves().into_iter().map(|leaf| circuit.records[leaf][A] as u8).collect()
}

/// Whether an accepted sheet is at or below another one: they differ in delay
/// leaves alone, and each of the first is at or below that of the second.
pub fn sheet_at_or_below(first: &[u8], second: &[u8]) -> bool {
    only_delays_differ(first, second) && at_or_below(&delay_values(first), &delay_values(second))
}

/// A stimulus at or below another one: leaves lowered to 0, one in so many.
pub fn lower_stimulus(stimulus: &[u8], one_in: usize, random: &mut Random) -> Vec<u8> {
    stimulus.iter().map(|&leaf| if random.one_in(one_in) { 0 } else { leaf }).collect()
}

/// A sheet at or below an accepted one: delay leaves lowered to 0, one in so
/// many.
pub fn lower_sheet(sheet: &[u8], one_in: usize, random: &mut Random) -> Vec<u8> {
    let Ok(circuit) = Circuit::read(sheet) else { return sheet.to_vec() };
    let mut records = circuit.records.clone();
    for leaf in circuit.delay_leaves() {
        if random.one_in(one_in) {
            records[leaf][A] = 0;
        }
    }
    bytes(&records)
}
