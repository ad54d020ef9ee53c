//! Replays that keep every rule: the outputs of a run, or others.

use super::case::Case;
use crate::accepted::Circuit;
use crate::calls::runs::case::Case as RunCase;
use crate::calls::runs::cases::few_cycles;
use crate::fuzz::random_bytes;
use crate::random::Random;
use crate::records::bytes;
use crate::samples::from_words;
use crate::simulator::run;

/// An accepted sheet and a stimulus, and what a run of them gives.
pub struct Ran {
    pub sheet: Vec<u8>,
    pub stimulus: Vec<u8>,
    pub outputs: Vec<u8>,
    pub next: Vec<u8>,
    /// The constructor count of each leaf of the output.
    pub counts: Vec<u8>,
}

impl Ran {
    /// Of a call with the right lengths, none if it is refused.
    pub fn of(case: &RunCase) -> Option<Ran> {
        let circuit = Circuit::read(&case.sheet).ok()?;
        let outcome = run(&case.call());
        Some(Ran {
            sheet: case.sheet.clone(),
            stimulus: case.stimulus.clone(),
            outputs: outcome.outputs?,
            next: outcome.next?,
            counts: circuit.counts(circuit.typed.output),
        })
    }

    /// The replay of a record.
    pub fn replay(&self, source: &str, recorded: Vec<u8>) -> Case {
        let Ran { sheet, stimulus, .. } = self;
        let (sheet, stimulus, next_length) = (sheet.clone(), stimulus.clone(), sheet.len());
        Case { source: source.to_string(), sheet, stimulus, recorded, next_length }
    }

    /// The outputs in two calls of five; else some that differ, if there are
    /// outputs: in one leaf, in several of one cycle, in several cycles, or in
    /// very many leaves.
    pub fn any(&self, source: &str, random: &mut Random) -> Case {
        let recorded = match random.below(10) {
            0..=3 => self.outputs.clone(),
            _ => self.altered(random),
        };
        self.replay(source, recorded)
    }

    /// A record that differs, if there are outputs.
    pub fn altered(&self, random: &mut Random) -> Vec<u8> {
        let leaves = self.counts.len();
        let cycles = self.outputs.len() / leaves;
        if cycles == 0 {
            return Vec::new();
        }
        let mut recorded = self.outputs.clone();
        let cycle = |random: &mut Random| match random.below(4) {
            0 => 0,
            1 => cycles - 1,
            _ => random.below(cycles),
        };
        match random.below(8) {
            0..=2 => {
                let at = cycle(random) * leaves + random.below(leaves);
                self.alter(&mut recorded, at, random);
            }
            3 | 4 => {
                let first = cycle(random) * leaves;
                for _ in 0..random.range(2, 4) {
                    self.alter(&mut recorded, first + random.below(leaves), random);
                }
            }
            5 | 6 => {
                for _ in 0..random.range(2, 4) {
                    let at = cycle(random) * leaves + random.below(leaves);
                    self.alter(&mut recorded, at, random);
                }
            }
            _ => {
                // The panel missed a cycle, or kept bytes of something else.
                let from = cycle(random) * leaves;
                match random.one_in(2) {
                    true => recorded[from..].rotate_left(leaves),
                    false => {
                        let other = random_bytes(recorded.len() - from, random);
                        recorded[from..].copy_from_slice(&other);
                    }
                }
            }
        }
        recorded
    }

    /// Another byte at a place: undefined, another value of its type, one above
    /// its count, or any.
    fn alter(&self, recorded: &mut [u8], at: usize, random: &mut Random) {
        let count = usize::from(self.counts[at % self.counts.len()]);
        let given = self.outputs[at];
        let byte = match random.below(4) {
            0 => 0,
            1 => random.range(1, count) as u8,
            2 => random.range((count + 1).min(255), 255) as u8,
            _ => random.below(256) as u8,
        };
        recorded[at] = if byte == given { given ^ 1 } else { byte };
    }
}

/// A few cycles; none in one call of twelve.
pub fn some_cycles(random: &mut Random) -> usize {
    match random.one_in(12) {
        true => 0,
        false => few_cycles(random),
    }
}

/// The input, a bit, in each of 64 output leaves: each LET's name is a pair of
/// the name around it.
pub fn bit_64_times() -> Vec<u8> {
    bytes(&from_words(&[
        &[1, 1, 1, 8],
        &[16, 2, 2],
        &[17, 3, 1, 1],
        &[17, 4, 2, 2],
        &[17, 5, 3, 3],
        &[17, 6, 4, 4],
        &[17, 7, 5, 5],
        &[17, 0, 6, 6],
        &[37, 0, 9, 12],
        &[34, 0, 10, 11],
        &[33],
        &[33],
        &[37, 0, 13, 16],
        &[34, 0, 14, 15],
        &[33],
        &[33],
        &[37, 0, 17, 20],
        &[34, 0, 18, 19],
        &[33],
        &[33],
        &[37, 0, 21, 24],
        &[34, 0, 22, 23],
        &[33],
        &[33],
        &[37, 0, 25, 28],
        &[34, 0, 26, 27],
        &[33],
        &[33],
        &[34, 0, 29, 30],
        &[33],
        &[33],
    ]))
}
