//! Calls that keep every rule.

use super::case::Case;
use crate::accepted::Circuit;
use crate::generate::circuits::circuit;
use crate::generate::network::network;
use crate::generate::small::small;
use crate::layout::{record_count, sheet};
use crate::random::Random;
use crate::records::{sort, Sort, KIND, MAX_RECORDS};
use crate::shapes;

/// What a call needs to know of an accepted sheet.
pub struct Frame {
    /// The constructor count of each leaf of the input.
    pub counts: Vec<u8>,
    /// How many leaves the output has.
    pub output: usize,
    /// The most leaves of an expression.
    pub widest: usize,
    /// The most leaves of a constant or delay.
    pub longest_chain: usize,
}

impl Frame {
    /// The frame of a sheet, none if it is refused.
    pub fn of(sheet: &[u8]) -> Option<Frame> {
        let circuit = Circuit::read(sheet).ok()?;
        let output = circuit.width(circuit.root());
        let of_expressions = (1..circuit.records.len())
            .filter(|&n| sort(circuit.records[n][KIND]) == Some(Sort::Expression));
        let widest = of_expressions.map(|n| circuit.width(n)).max().unwrap_or(0);
        let longest_chain = circuit.leaves.iter().map(Vec::len).max().unwrap_or(0);
        Some(Frame { counts: circuit.counts(circuit.input()), output, widest, longest_chain })
    }

    /// A well formed stimulus: any values, defined ones only, mostly the same
    /// ones as in the cycle before, or undefined.
    fn stimulus(&self, cycles: usize, random: &mut Random) -> Vec<u8> {
        let style = random.below(8);
        let leaves = self.counts.len();
        let mut stimulus: Vec<u8> = Vec::with_capacity(cycles * leaves);
        for k in 0..cycles * leaves {
            let count = usize::from(self.counts[k % leaves]);
            let byte = match style {
                0..=2 => random.below(count + 1) as u8,
                3..=5 => random.range(1, count) as u8,
                6 if k >= leaves && !random.one_in(5) => stimulus[k - leaves],
                6 => random.below(count + 1) as u8,
                _ if random.one_in(6) => random.range(1, count) as u8,
                _ => 0,
            };
            stimulus.push(byte);
        }
        stimulus
    }
}

/// A call that keeps every rule.
pub fn good(
    source: &str,
    sheet: Vec<u8>,
    frame: &Frame,
    cycles: usize,
    random: &mut Random,
) -> Case {
    let stimulus = frame.stimulus(cycles, random);
    on(source, sheet, frame, cycles, stimulus)
}

/// The call on a stimulus of so many cycles.
fn on(source: &str, sheet: Vec<u8>, frame: &Frame, cycles: usize, stimulus: Vec<u8>) -> Case {
    let (output_length, next_length) = (cycles * frame.output, sheet.len());
    Case { source: source.to_string(), sheet, stimulus, output_length, next_length }
}

/// A call on a named sheet, if it is accepted; a third of the bits of its input
/// is undefined.
pub fn named(name: &str, cycles: usize) -> Option<Case> {
    let sheet = shapes::named(name)?;
    let frame = Frame::of(&sheet)?;
    Some(good(name, sheet, &frame, cycles, &mut Random::new(4)))
}

/// The same with an input that is defined in every leaf.
pub fn defined(name: &str, cycles: usize) -> Option<Case> {
    let sheet = shapes::named(name)?;
    let frame = Frame::of(&sheet)?;
    let mut random = Random::new(4);
    let counts = frame.counts.repeat(cycles);
    let stimulus =
        counts.iter().map(|&count| random.range(1, usize::from(count)) as u8).collect();
    Some(on(name, sheet, &frame, cycles, stimulus))
}

/// A call that keeps every rule, on any sheet that is not large.
pub fn any(source: &str, random: &mut Random) -> Option<Case> {
    let draft = match random.below(10) {
        0..=3 => network(random),
        4..=7 => small(random),
        _ => circuit(random),
    };
    if record_count(&draft) > MAX_RECORDS {
        return None;
    }
    let sheet = sheet(&draft, random);
    let frame = Frame::of(&sheet)?;
    Some(good(source, sheet, &frame, few_cycles(random), random))
}

/// A few cycles, sometimes none, one or two, seldom many.
pub fn few_cycles(random: &mut Random) -> usize {
    match random.below(40) {
        0 => 0,
        1 => random.range(1, 2),
        2 => random.range(20, 120),
        3..=7 => random.range(8, 16),
        _ => random.range(3, 7),
    }
}
