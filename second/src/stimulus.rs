//! A stimulus for an accepted sheet: codes 8 and 9, and its cycles.

use crate::accepted::Circuit;
use crate::answers::{Answer, WRONG_INPUT, WRONG_STIMULUS};

/// The greatest length of a stimulus.
pub const LONGEST_STIMULUS: usize = 65_535;

/// Code 8: too long or not whole cycles. An empty one is of no cycles.
pub fn wrong_stimulus(circuit: &Circuit, stimulus: &[u8]) -> Option<Answer> {
    let whole = stimulus.len().is_multiple_of(leaves(circuit));
    let holds = stimulus.len() <= LONGEST_STIMULUS && whole;
    (!holds).then_some(Answer { code: WRONG_STIMULUS, place: 0 })
}

/// Code 8 of a call that takes exactly one cycle.
pub fn not_one_cycle(circuit: &Circuit, stimulus: &[u8]) -> Option<Answer> {
    (stimulus.len() != leaves(circuit)).then_some(Answer { code: WRONG_STIMULUS, place: 0 })
}

/// Code 9: the first byte above its leaf's constructor count.
pub fn wrong_input(circuit: &Circuit, stimulus: &[u8]) -> Option<Answer> {
    let counts = circuit.counts(circuit.input());
    let place =
        stimulus.iter().zip(counts.iter().cycle()).position(|(byte, count)| byte > count)?;
    Some(Answer { code: WRONG_INPUT, place: place as u32 })
}

/// The inputs of the cycles, in order.
pub fn cycles<'a>(
    circuit: &Circuit,
    stimulus: &'a [u8],
) -> impl ExactSizeIterator<Item = &'a [u8]> {
    stimulus.chunks_exact(leaves(circuit))
}

/// How many leaves the input has.
pub fn leaves(circuit: &Circuit) -> usize {
    circuit.width(usize::from(circuit.input()))
}
