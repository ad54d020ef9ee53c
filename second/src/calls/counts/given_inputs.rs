//! Random circuits on an input whose leaves have given constructor counts.

use super::folds::fold;
use super::products::{type_of, with_ones};
use crate::draft::Draft;
use crate::generate::decisions::decide;
use crate::random::Random;

/// The input is the output.
pub fn copying(counts: &[usize], random: &mut Random) -> Draft {
    let mut draft = Draft::new();
    let of = type_of(&mut draft, counts, random);
    draft.set_input(of);
    let root = draft.name(0, of);
    draft.set_root(root);
    draft
}

/// The output is of the input's type and does not hang on it.
fn idle(counts: &[usize], random: &mut Random) -> Draft {
    let mut draft = Draft::new();
    let input = type_of(&mut draft, counts, random);
    draft.set_input(input);
    let mut root = draft.random_constant(input, random);
    if random.one_in(2) {
        let held = draft.random_leaves(input, random);
        root = draft.delay(input, held, root);
    }
    draft.set_root(root);
    draft
}

/// Any circuit, and leaves of one constructor beside the others.
pub fn circuit_on(counts: Vec<usize>, random: &mut Random) -> Draft {
    let counts = with_ones(counts, random);
    match random.below(8) {
        0 => idle(&counts, random),
        1..=3 => {
            let mut draft = Draft::new();
            let input = type_of(&mut draft, &counts, random);
            draft.set_input(input);
            decide(&mut draft, random);
            draft
        }
        _ => fold(&counts, 16, random),
    }
}
