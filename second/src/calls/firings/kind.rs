//! What is compared of fired alternatives, and what is counted of them.

use super::archive;
use super::firing::{first_yes, tested, Call};
use super::mistakes::{firing, FiringMistake, MISTAKES};
use crate::accepted::Circuit;
use crate::answers::WRONG_WORDS;
use crate::evaluator::Tested;
use crate::matching::{said_by_each, Match};
use crate::one_cycle::kind::{Case, Kind, Outcome};
use crate::records::{
    expression_parts, Record, A, B, C, D, FEEDBACK, IF, KIND, NEXT, PAIR_PATTERN,
};
use crate::structure::{choices_on, nestings};

const CHOICES: &str = "firings with an IF";
const YES: &str = "firings with an IF of which an alternative fires";
const NONE: &str = "firings with an IF of which none fires";
const NO: &str = "firings with an IF whose pattern says no";
const UNDECIDED: &str = "firings with an IF whose pattern is undecided";
const UNDECIDED_FIRST: &str = "firings with an undecided alternative before a yes";
const LATER: &str = "firings with a yes that is not the first alternative";
const TWO_YES: &str = "firings with two alternatives that say yes";
const NESTED: &str = "firings with an IF in nested feedbacks";
const NESTED_THREE: &str = "firings with an IF in three nested feedbacks";
const BOTH_PARTS: &str = "firings with IFs in both parts of a feedback";
const OTHER_ROUND: &str = "firings with an IF that differs from its first round";
const OTHER_BEFORE: &str = "firings with an IF that differs from its round before";
const SHARED: &str = "firings with a pattern that several IFs name";
const SHARED_APART: &str = "firings with IFs of one pattern that tell two numbers";
const IN_PATTERNS: &str = "firings with a chain inside a pair pattern";

/// The comparison of fired alternatives.
pub struct Firings;

impl Kind for Firings {
    type Mistake = FiringMistake;

    const COMMAND: &'static str = "fired";
    const CALLS: &'static [&'static str] = &["sheet_fired"];
    const WHAT: &'static str = "firings";
    const CASES: &'static str = "--firings";
    const LEAST: u64 = 100_000;
    const LENGTH_CODE: u8 = WRONG_WORDS;
    const ITEM: usize = 2;
    const QUOTAS: &'static [(&'static str, u64)] = &[
        (CHOICES, 50_000),
        (YES, 30_000),
        (NONE, 20_000),
        (NO, 10_000),
        (UNDECIDED, 10_000),
        (UNDECIDED_FIRST, 3_000),
        (LATER, 10_000),
        (TWO_YES, 5_000),
        (NESTED, 5_000),
        (NESTED_THREE, 1_000),
        (BOTH_PARTS, 5_000),
        (OTHER_ROUND, 2_000),
        (OTHER_BEFORE, 1_000),
        (SHARED, 10_000),
        (SHARED_APART, 2_000),
        (IN_PATTERNS, 2_000),
    ];
    const MISTAKES: &'static [(&'static str, FiringMistake)] = &MISTAKES;

    fn items(circuit: &Circuit) -> usize {
        circuit.records.len()
    }

    fn second(case: &Case, mistake: Option<FiringMistake>) -> Outcome {
        let Case { sheet, stimulus, slice_length, .. } = case;
        let outcome = firing(&Call { sheet, stimulus, fired_length: *slice_length }, mistake);
        let bytes = |words: Vec<u16>| words.into_iter().flat_map(u16::to_ne_bytes).collect();
        Outcome { answer: outcome.answer, slice: outcome.fired.map(bytes) }
    }

    fn archive(sheet: &[u8], stimulus: &[u8], slice: &mut [u8]) -> u64 {
        archive::fired(sheet, stimulus, slice)
    }

    fn counts(case: &Case) -> Vec<(&'static str, bool)> {
        let Ok(circuit) = Circuit::read(&case.sheet) else { return Vec::new() };
        let choices = choices(&circuit, &case.stimulus);
        let records = &circuit.records;
        let nestings = nestings(records);
        let any = |holds: &dyn Fn(&Choice) -> bool| choices.iter().any(holds);
        vec![
            (CHOICES, !choices.is_empty()),
            (YES, any(&|choice| choice.fires())),
            (NONE, any(&|choice| !choice.fires())),
            (NO, any(&|choice| choice.says(Match::No) == choice.said.len())),
            (UNDECIDED, any(&|choice| !choice.fires() && choice.says(Match::Undecided) > 0)),
            (UNDECIDED_FIRST, any(&Choice::undecided_first)),
            (LATER, any(&|choice| choice.first(Match::Yes).is_some_and(|at| at > 0))),
            (TWO_YES, any(&|choice| choice.says(Match::Yes) > 1)),
            (NESTED, any(&|choice| nestings[choice.number] >= 2)),
            (NESTED_THREE, any(&|choice| nestings[choice.number] == 3)),
            (BOTH_PARTS, in_both_parts(records)),
            (OTHER_ROUND, any(&|choice| choice.differs(&circuit, &choice.tested.first))),
            (OTHER_BEFORE, any(&|choice| choice.differs(&circuit, &choice.tested.before))),
            (SHARED, choices_on(records).into_iter().any(|count| count > 1)),
            (SHARED_APART, shared_apart(&circuit, &choices)),
            (IN_PATTERNS, any(&|choice| chain_inside(records, choice))),
        ]
    }
}

/// An IF, and what its alternatives say.
struct Choice {
    number: usize,
    said: Vec<(u16, Match)>,
    tested: Tested,
}

impl Choice {
    fn says(&self, asked: Match) -> usize {
        self.said.iter().filter(|(_, said)| *said == asked).count()
    }

    fn first(&self, asked: Match) -> Option<usize> {
        self.said.iter().position(|(_, said)| *said == asked)
    }

    fn fires(&self) -> bool {
        self.says(Match::Yes) > 0
    }

    fn undecided_first(&self) -> bool {
        matches!(
            (self.first(Match::Undecided), self.first(Match::Yes)),
            (Some(undecided), Some(yes)) if undecided < yes
        )
    }

    /// Whether another number is told of what an earlier round tested.
    fn differs(&self, circuit: &Circuit, round: &Option<Vec<u8>>) -> bool {
        let told = |value: &[u8]| first_yes(circuit, self.number, value);
        round.as_ref().is_some_and(|value| told(value) != told(&self.tested.last))
    }
}

/// The IFs of a circuit in one cycle.
fn choices(circuit: &Circuit, input: &[u8]) -> Vec<Choice> {
    let tested = tested(circuit, input);
    let choice = |(number, tested): (usize, Tested)| {
        let record = circuit.records[number];
        (record[KIND] == IF).then(|| {
            let said = said_by_each(circuit, record[D], &tested.last);
            Choice { number, said, tested }
        })
    };
    tested.into_iter().enumerate().filter_map(choice).collect()
}

/// Whether an IF stands in an expression, itself included.
fn holds_choice(records: &[Record], number: usize) -> bool {
    let record = &records[number];
    record[KIND] == IF || expression_parts(record).any(|(_, part)| holds_choice(records, part))
}

/// Whether there are IFs in the defining part and in the body of a feedback.
fn in_both_parts(records: &[Record]) -> bool {
    let both = |record: &Record| {
        [B, C].iter().all(|&word| holds_choice(records, usize::from(record[word])))
    };
    records.iter().any(|record| record[KIND] == FEEDBACK && both(record))
}

/// Whether two IFs name one pattern and tell two numbers.
fn shared_apart(circuit: &Circuit, choices: &[Choice]) -> bool {
    let told = |choice: &Choice| {
        let pattern = circuit.records[choice.number][D];
        (pattern, first_yes(circuit, choice.number, &choice.tested.last))
    };
    let mut all: Vec<(u16, u16)> = choices.iter().map(told).collect();
    all.sort_unstable();
    all.dedup();
    all.windows(2).any(|two| two[0].0 == two[1].0)
}

/// Whether a part of a pair pattern of an IF's chain is a chain of several.
fn chain_inside(records: &[Record], choice: &Choice) -> bool {
    choice.said.iter().any(|(pattern, _)| {
        let record = &records[usize::from(*pattern)];
        record[KIND] == PAIR_PATTERN
            && [A, B].iter().any(|&word| records[usize::from(record[word])][NEXT] != 0)
    })
}
