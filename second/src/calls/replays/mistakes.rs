//! Mistakes in the replay, so that the comparison can be shown to find them.
//! They alter what the replay is handed or what it gives, or replace a rule.

use super::replay::{
    replay as right, replay_by, wrong_next, wrong_record, Call, Finding, Outcome, Place, Rules,
    RULES, WRONG_RECORDED_LENGTH,
};
use crate::answers::{
    Answer, WRONG_INPUT, WRONG_NEXT_LENGTH, WRONG_OUTPUT_LENGTH, WRONG_STIMULUS,
};
use crate::simulator::{self, ready, Ready};
use crate::stimulus;
use crate::values::at_or_below;

#[derive(Clone, Copy, PartialEq, Eq, Debug)]
pub enum ReplayMistake {
    /// The last cycle that differs is given.
    LastDifference,
    /// The highest leaf that differs is given.
    HighestLeaf,
    /// The lowest leaf that differs in any cycle is given.
    LeafFirst,
    /// Only the first cycle is compared.
    FirstCycleOnly,
    /// Each cycle begins from the sheet that was handed in.
    DelaysNotAdvanced,
    /// A recorded 0 agrees with every value.
    RecordByOrder,
    /// An undefined output agrees with every recorded byte.
    OutputByOrder,
    /// A recorded byte above its count is refused by code 9.
    AboveCountRefused,
    /// The leaf is counted from the start of the record.
    LeafThroughRecord,
    /// Cycles are counted from 1.
    CycleFromOne,
    /// Leaves are counted from 1.
    LeafFromOne,
    /// A differing record comes with the number of cycles done.
    CountOnDifference,
    /// An agreeing record comes with no number of cycles.
    NoCountOnAgreement,
    /// The number of cycles is the place of 0, as that of a run.
    CountInResult,
    /// A differing record leaves the run's next sheet.
    NextWrittenOnDifference,
    /// An agreeing record leaves the sheet as it was.
    NextIsTheSheet,
    /// A record that is longer is compared as far as it is asked for.
    LongRecordTaken,
    /// Code 10 is given where 17 is.
    TenForSeventeen,
    /// The place of 17 is the length of the record.
    PlaceOfSeventeenGiven,
    /// Code 11 is judged before code 17.
    ElevenBeforeSeventeen,
    /// Code 11 is judged of an agreeing record alone.
    ElevenAfterComparing,
    /// Code 17 is judged before code 9.
    SeventeenBeforeNine,
    /// Code 9 is judged before code 8.
    NineBeforeEight,
    /// An empty stimulus is refused by code 8.
    EmptyRefused,
    /// A refusal comes with a number of cycles.
    ZerosNotOnRefusal,
    /// A refusal copies the sheet to a next slice of its length.
    RefusalFillsNext,
}

/// Every mistake and its name.
pub const MISTAKES: [(&str, ReplayMistake); 26] = [
    ("last-difference", ReplayMistake::LastDifference),
    ("highest-leaf", ReplayMistake::HighestLeaf),
    ("leaf-first", ReplayMistake::LeafFirst),
    ("first-cycle-only", ReplayMistake::FirstCycleOnly),
    ("delays-not-advanced", ReplayMistake::DelaysNotAdvanced),
    ("record-by-order", ReplayMistake::RecordByOrder),
    ("output-by-order", ReplayMistake::OutputByOrder),
    ("above-count-refused", ReplayMistake::AboveCountRefused),
    ("leaf-through-record", ReplayMistake::LeafThroughRecord),
    ("cycle-from-one", ReplayMistake::CycleFromOne),
    ("leaf-from-one", ReplayMistake::LeafFromOne),
    ("count-on-difference", ReplayMistake::CountOnDifference),
    ("no-count-on-agreement", ReplayMistake::NoCountOnAgreement),
    ("count-in-result", ReplayMistake::CountInResult),
    ("next-written-on-difference", ReplayMistake::NextWrittenOnDifference),
    ("next-is-the-sheet", ReplayMistake::NextIsTheSheet),
    ("long-record-taken", ReplayMistake::LongRecordTaken),
    ("ten-for-seventeen", ReplayMistake::TenForSeventeen),
    ("place-of-seventeen-given", ReplayMistake::PlaceOfSeventeenGiven),
    ("eleven-before-seventeen", ReplayMistake::ElevenBeforeSeventeen),
    ("eleven-after-comparing", ReplayMistake::ElevenAfterComparing),
    ("seventeen-before-nine", ReplayMistake::SeventeenBeforeNine),
    ("nine-before-eight", ReplayMistake::NineBeforeEight),
    ("empty-refused", ReplayMistake::EmptyRefused),
    ("zeros-not-on-refusal", ReplayMistake::ZerosNotOnRefusal),
    ("refusal-fills-next", ReplayMistake::RefusalFillsNext),
];

/// The rules with a mistake in one of them; none for a mistake elsewhere.
fn wrong_rules(mistake: ReplayMistake) -> Option<Rules> {
    let rules = match mistake {
        ReplayMistake::LastDifference => Rules { first: of_the_last_cycle, ..RULES },
        ReplayMistake::HighestLeaf => Rules { first: highest_leaf, ..RULES },
        ReplayMistake::LeafFirst => {
            let first = |places: &[Place]| places.iter().copied().min_by_key(|place| place.leaf);
            Rules { first, ..RULES }
        }
        ReplayMistake::FirstCycleOnly => {
            let first =
                |places: &[Place]| places.first().copied().filter(|place| place.cycle == 0);
            Rules { first, ..RULES }
        }
        ReplayMistake::DelaysNotAdvanced => {
            Rules { cycle: |stepper, input| stepper.look(input), ..RULES }
        }
        ReplayMistake::RecordByOrder => {
            Rules { same: |recorded, given| at_or_below(&[recorded], &[given]), ..RULES }
        }
        ReplayMistake::OutputByOrder => {
            Rules { same: |recorded, given| at_or_below(&[given], &[recorded]), ..RULES }
        }
        _ => return None,
    };
    Some(rules)
}

/// The lowest leaf of the last cycle that differs.
fn of_the_last_cycle(places: &[Place]) -> Option<Place> {
    let last = places.last()?.cycle;
    places.iter().copied().find(|place| place.cycle == last)
}

/// The highest leaf of the first cycle that differs.
fn highest_leaf(places: &[Place]) -> Option<Place> {
    let first = places.first()?.cycle;
    places.iter().copied().take_while(|place| place.cycle == first).last()
}

/// The replay of a call, or what a mistake makes of it.
pub fn replay(call: &Call, mistake: Option<ReplayMistake>) -> Outcome {
    let Some(mistake) = mistake else { return right(call) };
    if let Some(rules) = wrong_rules(mistake) {
        return replay_by(&rules, call);
    }
    let outcome = right(call);
    let instead = match outcome.found {
        Some(Finding::Agrees(cycles)) => of_agreeing(call, &outcome, cycles, mistake),
        Some(Finding::Differs(place)) => of_differing(call, place, mistake),
        None => of_refused(call, outcome.answer, mistake),
    };
    instead.unwrap_or(outcome)
}

/// Code 8, of an empty stimulus.
fn empty_refused(call: &Call, mistake: ReplayMistake) -> Option<Outcome> {
    let refused = mistake == ReplayMistake::EmptyRefused && call.stimulus.is_empty();
    refused.then(|| Outcome::refused(Answer { code: WRONG_STIMULUS, place: 0 }))
}

/// What a mistake makes of an agreeing record, if anything.
fn of_agreeing(
    call: &Call,
    outcome: &Outcome,
    cycles: usize,
    mistake: ReplayMistake,
) -> Option<Outcome> {
    let outcome = outcome.clone();
    match mistake {
        ReplayMistake::NoCountOnAgreement => {
            Some(Outcome { found: Some(Finding::Agrees(0)), ..outcome })
        }
        ReplayMistake::CountInResult => {
            Some(Outcome { answer: Answer::accepted(cycles as u32), ..outcome })
        }
        ReplayMistake::NextIsTheSheet => {
            Some(Outcome { next: Some(call.sheet.to_vec()), ..outcome })
        }
        _ => empty_refused(call, mistake),
    }
}

/// What a mistake makes of a record that differs at a place, if anything.
fn of_differing(call: &Call, place: Place, mistake: ReplayMistake) -> Option<Outcome> {
    let Ok(ready) = ready(call.sheet, call.stimulus) else { return None };
    let Place { cycle, leaf } = place;
    let at = |place: Place| {
        let found = Some(Finding::Differs(place));
        Some(Outcome { answer: Answer::accepted(0), found, next: None })
    };
    match mistake {
        ReplayMistake::LeafThroughRecord => {
            let leaf = cycle * ready.leaves + leaf;
            at(Place { cycle, leaf })
        }
        ReplayMistake::CycleFromOne => at(Place { cycle: cycle + 1, leaf }),
        ReplayMistake::LeafFromOne => at(Place { cycle, leaf: leaf + 1 }),
        ReplayMistake::CountOnDifference => at(Place { cycle: ready.cycles, leaf }),
        ReplayMistake::NextWrittenOnDifference => {
            let next = next_of_run(call, &ready);
            at(place).map(|outcome| Outcome { next, ..outcome })
        }
        ReplayMistake::AboveCountRefused => {
            let counts = ready.circuit.counts(ready.circuit.typed.output);
            let mut leaves = call.recorded.iter().zip(counts.iter().cycle());
            let place = leaves.position(|(byte, count)| byte > count)? as u32;
            Some(Outcome::refused(Answer { code: WRONG_INPUT, place }))
        }
        _ => None,
    }
}

/// The next sheet of a run of the call.
fn next_of_run(call: &Call, ready: &Ready) -> Option<Vec<u8>> {
    let Call { sheet, stimulus, .. } = *call;
    let (output_length, next_length) = (ready.output_length, sheet.len());
    simulator::run(&simulator::Call { sheet, stimulus, output_length, next_length }).next
}

/// What a mistake makes of a refusal, if anything.
fn of_refused(call: &Call, answer: Answer, mistake: ReplayMistake) -> Option<Outcome> {
    let Answer { code, place } = answer;
    let refusal = Outcome::refused(answer);
    let is_sheet = call.next_length == call.sheet.len();
    match (mistake, code) {
        (ReplayMistake::ZerosNotOnRefusal, _) => {
            return Some(Outcome { found: Some(Finding::Agrees(call.stimulus.len())), ..refusal })
        }
        (ReplayMistake::RefusalFillsNext, _) if is_sheet => {
            return Some(Outcome { next: Some(call.sheet.to_vec()), ..refusal })
        }
        (ReplayMistake::TenForSeventeen, WRONG_RECORDED_LENGTH) => {
            return Some(Outcome::refused(Answer { code: WRONG_OUTPUT_LENGTH, place }))
        }
        (ReplayMistake::PlaceOfSeventeenGiven, WRONG_RECORDED_LENGTH) => {
            return Some(Outcome::refused(Answer { code, place: call.recorded.len() as u32 }))
        }
        (ReplayMistake::LongRecordTaken, WRONG_RECORDED_LENGTH) => {
            let recorded = call.recorded.get(..place as usize)?;
            return Some(right(&Call { recorded, ..*call }));
        }
        (ReplayMistake::ElevenBeforeSeventeen, WRONG_RECORDED_LENGTH) => {
            return wrong_next(call).map(Outcome::refused)
        }
        (ReplayMistake::ElevenAfterComparing, WRONG_NEXT_LENGTH) => {
            let compared = right(&Call { next_length: call.sheet.len(), ..*call });
            let differs = matches!(compared.found, Some(Finding::Differs(_)));
            return differs.then_some(compared);
        }
        (ReplayMistake::EmptyRefused, WRONG_RECORDED_LENGTH | WRONG_NEXT_LENGTH) => {
            return empty_refused(call, mistake)
        }
        _ => {}
    }
    of_stimulus_refused(call, code, mistake).map(Outcome::refused)
}

/// The code that a mistake in their order gives in place of 8 or 9, if any.
fn of_stimulus_refused(call: &Call, code: u8, mistake: ReplayMistake) -> Option<Answer> {
    let of_no_cycles = ready(call.sheet, &[]).ok()?;
    let Ready { circuit, leaves, .. } = of_no_cycles;
    match (mistake, code) {
        (ReplayMistake::NineBeforeEight, WRONG_STIMULUS) => {
            stimulus::wrong_input(&circuit, call.stimulus)
        }
        (ReplayMistake::SeventeenBeforeNine, WRONG_INPUT) => {
            let cycles = stimulus::cycles(&circuit, call.stimulus).len();
            let ready = Ready { circuit, cycles, leaves, output_length: cycles * leaves };
            wrong_record(&ready, call)
        }
        _ => None,
    }
}
