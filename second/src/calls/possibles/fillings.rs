//! The undefined leaves of a call, and the ways to fill them: those of the
//! input, of constants and of delays.

use super::estimator::estimate;
use super::sets::Sets;
use crate::accepted::Circuit;
use crate::evaluator::Right;
use crate::records::{A, B, CONSTANT, DELAY, KIND, NEXT, RECORD_BYTES};
use crate::rule::Rule;
use crate::stepper::Stepper;
use crate::values::Value;
use crate::watch::Watch;

/// An undefined leaf.
#[derive(Clone, Copy)]
pub struct Gap {
    place: Place,
    /// How many constructors its type has.
    pub count: u8,
}

#[derive(Clone, Copy)]
enum Place {
    Input(usize),
    /// A leaf of the value of a constant or delay, and the record of the leaf.
    Held {
        record: usize,
        leaf: usize,
        leaf_record: usize,
    },
}

/// A call on an accepted sheet whose gaps can be filled, both as a circuit and
/// as bytes.
pub struct Fillable {
    circuit: Circuit,
    pub sheet: Vec<u8>,
    pub input: Value,
    pub gaps: Vec<Gap>,
}

impl Fillable {
    /// Of a sheet and one cycle of input; none if the sheet is refused.
    pub fn of(sheet: &[u8], input: &[u8]) -> Option<Fillable> {
        let circuit = Circuit::read(sheet).ok()?;
        let counts = circuit.counts(circuit.input());
        let gap = |(leaf, count): (usize, u8)| Gap { place: Place::Input(leaf), count };
        let undefined = |&(leaf, _): &(usize, u8)| input[leaf] == 0;
        let mut gaps: Vec<Gap> =
            counts.into_iter().enumerate().filter(undefined).map(gap).collect();
        for record in 1..circuit.records.len() {
            gaps.extend(gaps_of(&circuit, record));
        }
        Some(Fillable { circuit, sheet: sheet.to_vec(), input: input.to_vec(), gaps })
    }

    /// In how many ways all gaps can be filled; at most `usize::MAX`.
    pub fn ways(&self) -> usize {
        self.gaps.iter().fold(1, |ways: usize, gap| ways.saturating_mul(usize::from(gap.count)))
    }

    /// How many gaps are in the input.
    pub fn gaps_of_input(&self) -> usize {
        self.gaps.iter().filter(|gap| matches!(gap.place, Place::Input(_))).count()
    }

    /// Fills a gap; with 0 it is one again.
    pub fn put(&mut self, gap: usize, value: u8) {
        match self.gaps[gap].place {
            Place::Input(leaf) => self.input[leaf] = value,
            Place::Held { record, leaf, leaf_record } => {
                self.circuit.leaves[record][leaf] = value;
                self.sheet[leaf_record * RECORD_BYTES + 2 * A] = value;
            }
        }
    }

    /// What a gap holds now; 0 where it is one still.
    pub fn held(&self, gap: usize) -> u8 {
        match self.gaps[gap].place {
            Place::Input(leaf) => self.input[leaf],
            Place::Held { record, leaf, .. } => self.circuit.leaves[record][leaf],
        }
    }

    /// Fills all gaps in a way, counted from 0.
    pub fn fill(&mut self, way: usize) {
        let mut rest = way;
        for gap in 0..self.gaps.len() {
            let count = usize::from(self.gaps[gap].count);
            self.put(gap, (1 + rest % count) as u8);
            rest /= count;
        }
    }

    /// What each output leaf may be, as the leaves are filled now.
    pub fn sets(&self) -> Sets {
        estimate(&self.circuit, &self.input)
    }

    /// The outputs of the cycle, as the leaves are filled now.
    pub fn outputs(&self, rule: Rule) -> Value {
        let mut watch = Watch::nothing();
        Stepper::<Right>::new(&self.circuit, rule, &mut watch).look(&self.input)
    }
}

/// The undefined leaves of a constant or a delay; none of other records.
fn gaps_of(circuit: &Circuit, record: usize) -> Vec<Gap> {
    let words = circuit.records[record];
    if ![CONSTANT, DELAY].contains(&words[KIND]) {
        return Vec::new();
    }
    let mut gaps = Vec::new();
    let mut leaf_record = usize::from(words[B]);
    for (leaf, count) in circuit.counts(words[A]).into_iter().enumerate() {
        if circuit.leaves[record][leaf] == 0 {
            gaps.push(Gap { place: Place::Held { record, leaf, leaf_record }, count });
        }
        leaf_record = usize::from(circuit.records[leaf_record][NEXT]);
    }
    gaps
}
