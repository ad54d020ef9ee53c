//! Presses that keep every rule.

use super::case::Case;
use crate::accepted::Circuit;
use crate::evaluator::Right;
use crate::one_cycle::cases::Ground;
use crate::one_leaf::effort::most_evaluations;
use crate::random::Random;
use crate::rule::IN_FORCE;
use crate::stepper::Stepper;
use crate::watch::Watch;

/// An accepted sheet's circuit, and what a call needs to know of it: the items
/// are the output leaves.
pub struct Plain {
    circuit: Circuit,
    pub ground: Ground,
}

impl Plain {
    /// Of a sheet, none if it is refused.
    pub fn of(sheet: &[u8]) -> Option<Plain> {
        let circuit = Circuit::read(sheet).ok()?;
        let counts = circuit.counts(circuit.input());
        let ground = Ground { counts, items: circuit.width(circuit.root()) };
        Some(Plain { circuit, ground })
    }

    /// At most so many records are evaluated for all changes of an input.
    pub fn effort(&self) -> usize {
        let changes: usize = self.ground.counts.iter().map(|count| usize::from(*count)).sum();
        changes.saturating_mul(most_evaluations(&self.circuit))
    }

    /// A call that keeps every rule, on any output leaf.
    pub fn any(&self, source: &str, sheet: Vec<u8>, random: &mut Random) -> Case {
        let stimulus = self.ground.stimulus(1, random);
        let leaf = random.below(self.ground.items);
        Case { source: source.to_string(), sheet, stimulus, leaf }
    }

    /// The same, in one half of the calls on an output leaf that a change of
    /// one input leaf alters, if one of some changes alters any; the input may
    /// then be the changed one.
    pub fn good(&self, source: &str, sheet: Vec<u8>, random: &mut Random) -> Case {
        let case = self.any(source, sheet, random);
        if random.one_in(2) {
            return case;
        }
        let mut watch = Watch::nothing();
        let mut stepper = Stepper::<Right>::new(&self.circuit, IN_FORCE, &mut watch);
        let before = stepper.look(&case.stimulus);
        for _ in 0..8 {
            let mut changed = case.stimulus.clone();
            let leaf = random.below(changed.len());
            changed[leaf] = random.range(1, usize::from(self.ground.counts[leaf])) as u8;
            let after = stepper.look(&changed);
            let altered: Vec<usize> =
                (0..before.len()).filter(|&leaf| before[leaf] != after[leaf]).collect();
            if let Some(leaf) = random.pick(&altered) {
                let stimulus = if random.one_in(2) { changed } else { case.stimulus };
                return Case { leaf, stimulus, ..case };
            }
        }
        case
    }
}
