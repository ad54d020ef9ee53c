//! One cycle: the root's value, and what each delay holds after it.

use crate::accepted::Circuit;
use crate::evaluator::{Evaluator, Right, Steps, Tested};
use crate::rule::Rule;
use crate::values::Value;
use crate::watch::Watch;

pub struct Stepper<'a, S: Steps = Right> {
    circuit: &'a Circuit,
    evaluator: Evaluator<'a, S>,
}

impl<'a, S: Steps> Stepper<'a, S> {
    /// Begins from the values that the sheet's delays hold.
    pub fn new(circuit: &'a Circuit, rule: Rule, watch: &'a mut Watch) -> Self {
        Stepper { circuit, evaluator: Evaluator::new(circuit, rule, watch) }
    }

    /// The root's value for one input, while each delay goes on holding what it
    /// holds: the cycle is looked at, not taken.
    pub fn look(&mut self, input: &[u8]) -> Value {
        self.evaluator.names = vec![input.to_vec()];
        self.evaluator.value(self.circuit.root())
    }

    /// One cycle: a look, after which each delay holds its next value.
    pub fn cycle(&mut self, input: &[u8]) -> Value {
        let output = self.look(input);
        let evaluator = &mut self.evaluator;
        std::mem::swap(&mut evaluator.held, &mut evaluator.coming);
        evaluator.steps.taken();
        output
    }

    /// What each IF tested, by record.
    pub fn tested(&self) -> &[Tested] {
        &self.evaluator.tested
    }

    /// A sheet with the values that the delays hold.
    pub fn next_sheet(&self, sheet: &[u8]) -> Vec<u8> {
        let mut next = sheet.to_vec();
        self.circuit.hold(&mut next, &self.evaluator.held);
        next
    }
}
