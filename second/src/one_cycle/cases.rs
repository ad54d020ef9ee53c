//! Calls that keep every rule.

use super::kind::{Case, Kind};
use crate::accepted::Circuit;
use crate::random::Random;

/// What a call needs to know of an accepted sheet.
pub struct Ground {
    /// The constructor count of each leaf of the input.
    pub counts: Vec<u8>,
    /// How many items the slice has.
    pub items: usize,
}

impl Ground {
    /// The ground of a sheet, none if it is refused.
    pub fn of<K: Kind>(sheet: &[u8]) -> Option<Ground> {
        let circuit = Circuit::read(sheet).ok()?;
        Some(Ground { counts: circuit.counts(circuit.input()), items: K::items(&circuit) })
    }

    /// So many cycles of input: any values, defined ones only, or mostly
    /// undefined ones.
    pub fn stimulus(&self, cycles: usize, random: &mut Random) -> Vec<u8> {
        let style = random.below(8);
        let leaf = |count: u8| match style {
            0..=3 => random.below(usize::from(count) + 1) as u8,
            4..=6 => random.range(1, usize::from(count)) as u8,
            _ if random.one_in(4) => random.range(1, usize::from(count)) as u8,
            _ => 0,
        };
        self.counts.repeat(cycles).into_iter().map(leaf).collect()
    }

    /// A call that keeps every rule.
    pub fn good(&self, source: &str, sheet: Vec<u8>, random: &mut Random) -> Case {
        let stimulus = self.stimulus(1, random);
        Case { source: source.to_string(), sheet, stimulus, slice_length: self.items }
    }
}
