//! Wrong steps of an evaluation: the mistakes in the run that no alteration of
//! what it is handed or gives can make.

use std::collections::HashMap;

use crate::accepted::Circuit;
use crate::evaluator::{Evaluator, Steps};
use crate::matching::{both, chain_by, Match, Rules, RULES};
use crate::records::{Record, B, C};
use crate::rule::Rule;
use crate::values::Value;

/// A feedback starts from the first constructor in every leaf, where that
/// settles.
#[derive(Default)]
pub struct FromFirstConstructors;

impl Steps for FromFirstConstructors {
    fn settle(on: &mut Evaluator<Self>, feedback: usize) -> Value {
        let start = vec![1; on.undefined(feedback).len()];
        on.settle_from(feedback, start).unwrap_or_else(|| on.settle(feedback))
    }
}

/// A feedback starts from its value in the cycle before, where that settles.
#[derive(Default)]
pub struct FromLastCycle {
    before: HashMap<usize, Value>,
    settled: HashMap<usize, Value>,
}

impl Steps for FromLastCycle {
    fn settle(on: &mut Evaluator<Self>, feedback: usize) -> Value {
        let start = on.steps.before.get(&feedback).cloned();
        let settled = start.and_then(|start| on.settle_from(feedback, start));
        let value = settled.unwrap_or_else(|| on.settle(feedback));
        on.steps.settled.insert(feedback, value.clone());
        value
    }

    fn taken(&mut self) {
        self.before.clone_from(&self.settled);
    }
}

/// A feedback ends after two applications.
#[derive(Default)]
pub struct TwoApplications;

impl Steps for TwoApplications {
    fn settle(on: &mut Evaluator<Self>, feedback: usize) -> Value {
        let start = on.undefined(feedback);
        let once = on.apply(feedback, start.clone());
        if once == start {
            return once;
        }
        on.apply(feedback, once)
    }
}

/// The delays in the defining part of a feedback.
fn delays_inside<S: Steps>(on: &Evaluator<S>, feedback: usize) -> Vec<usize> {
    on.circuit.delays_in(usize::from(on.circuit.records[feedback][B]))
}

/// Delays in a feedback advance after each application. So it need not settle;
/// it ends after as many applications as one that settles takes.
#[derive(Default)]
pub struct DelayEveryRound;

impl Steps for DelayEveryRound {
    fn settle(on: &mut Evaluator<Self>, feedback: usize) -> Value {
        let mut value = on.undefined(feedback);
        for _ in 0..=value.len() {
            let given = on.apply(feedback, value.clone());
            for delay in delays_inside(on, feedback) {
                on.held[delay] = on.coming[delay].clone();
            }
            if given == value {
                break;
            }
            value = given;
        }
        value
    }
}

/// Delays in a feedback hold next what its first application gave them.
#[derive(Default)]
pub struct DelaysOfFirstRound;

impl Steps for DelaysOfFirstRound {
    fn settle(on: &mut Evaluator<Self>, feedback: usize) -> Value {
        let start = on.undefined(feedback);
        on.apply(feedback, start);
        let delays = delays_inside(on, feedback);
        let first: Vec<Value> = delays.iter().map(|&delay| on.coming[delay].clone()).collect();
        let value = on.settle(feedback);
        delays.into_iter().zip(first).for_each(|(delay, next)| on.coming[delay] = next);
        value
    }
}

/// The delays of a branch that is not taken keep their values.
#[derive(Default)]
pub struct ChosenBranchOnly;

impl Steps for ChosenBranchOnly {
    fn choice(on: &mut Evaluator<Self>, record: &Record, said: Match) -> Value {
        for (word, taken) in [(B, Match::Yes), (C, Match::No)] {
            if said != taken {
                for delay in on.circuit.delays_in(usize::from(record[word])) {
                    on.coming[delay] = on.held[delay].clone();
                }
            }
        }
        match said {
            Match::Yes => on.part(record, B),
            Match::No => on.part(record, C),
            Match::Undecided => {
                let coming = on.coming.clone();
                let (then, other) = (on.part(record, B), on.part(record, C));
                on.coming = coming;
                Self::undecided(on, then, other)
            }
        }
    }
}

/// A pair match is undecided although one part says no.
#[derive(Default)]
pub struct PairMatchUndecided;

impl Steps for PairMatchUndecided {
    fn said(circuit: &Circuit, first: u16, value: &[u8]) -> Match {
        let pair = |first: Match, second: Match| match (first, second) {
            (Match::Undecided, _) | (_, Match::Undecided) => Match::Undecided,
            _ => both(first, second),
        };
        chain_by(&Rules { pair, ..RULES }, circuit, first, value)
    }
}

/// A chain says no where it is undecided.
#[derive(Default)]
pub struct ChainNoWhenUndecided;

impl Steps for ChainNoWhenUndecided {
    fn said(circuit: &Circuit, first: u16, value: &[u8]) -> Match {
        chain_by(&Rules { none: |_| Match::No, ..RULES }, circuit, first, value)
    }
}

/// An undecided IF gives the value of its else part.
#[derive(Default)]
pub struct ElseWhenUndecided;

impl Steps for ElseWhenUndecided {
    fn undecided(_: &Evaluator<Self>, _: Value, other: Value) -> Value {
        other
    }
}

/// An undecided IF in the defining part of a feedback is undefined in every
/// leaf.
#[derive(Default)]
pub struct EarlierInFeedbacks {
    /// In how many defining parts the evaluation is.
    nesting: usize,
}

impl Steps for EarlierInFeedbacks {
    fn undecided(on: &Evaluator<Self>, then: Value, other: Value) -> Value {
        let rule = if on.steps.nesting > 0 { Rule::Earlier } else { on.rule };
        rule.undecided(&then, &other)
    }

    fn settle(on: &mut Evaluator<Self>, feedback: usize) -> Value {
        on.steps.nesting += 1;
        let value = on.settle(feedback);
        on.steps.nesting -= 1;
        value
    }
}
