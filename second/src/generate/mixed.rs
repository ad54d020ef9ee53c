//! Random circuits of several sizes and forms, as comparisons use them.

use super::boundary::{deepen, nest};
use super::circuits::circuit;
use super::network::{chain_of_64, network};
use super::small::small;
use crate::draft::Draft;
use crate::layout::record_count;
use crate::random::Random;
use crate::records::MAX_RECORDS;

/// A circuit that faults are put into, mostly not a large one.
pub fn for_faults(random: &mut Random) -> Draft {
    loop {
        let draft = circuit(random);
        if draft.nodes.len() <= 160 || random.one_in(20) {
            return draft;
        }
    }
}

/// Small types, so many of 200, all types, and limits; none if the circuit
/// can't be brought to its limit or has too many records.
pub fn with_limits(small_types: usize, random: &mut Random) -> Option<Draft> {
    let mut draft = match random.below(200) {
        0 => chain_of_64(random),
        1..=20 => network(random),
        kind if kind <= 20 + small_types => small(random),
        _ => circuit(random),
    };
    let changed = match random.below(40) {
        0 => nest(&mut draft, 3, random),
        1 => deepen(&mut draft, 64, random),
        _ => true,
    };
    (changed && record_count(&draft) <= MAX_RECORDS).then_some(draft)
}
