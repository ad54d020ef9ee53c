//! What is compared of previews, and what is counted of them.

use super::archive;
use super::mistakes::{preview, PreviewMistake, MISTAKES};
use super::preview::Call;
use crate::accepted::Circuit;
use crate::answers::{Answer, WRONG_OUTPUT_LENGTH, WRONG_STIMULUS};
use crate::calls::runs::archive::run as run_of_archive;
use crate::evaluator::Right;
use crate::frame::lender::Left;
use crate::one_cycle::kind::{Case, Kind, Outcome};
use crate::records::{read, DELAY, FEEDBACK, KIND};
use crate::rule::IN_FORCE;
use crate::stepper::Stepper;
use crate::structure::{choices_on, nestings};
use crate::watch::Watch;

const DELAYS: &str = "previews with a delay";
const DELAYS_MOVE: &str = "previews with a delay whose held value differs from the next one";
const DELAYS_SHOW: &str = "previews whose outputs differ from those of the cycle after";
const IN_FEEDBACKS: &str = "previews with such a delay and a feedback";
const NESTED: &str = "previews with feedbacks nested three deep";
const SHARED: &str = "previews with a pattern that several IFs name";
const DEFINED: &str = "previews with a defined output leaf";
const OTHER_LEAVES: &str = "previews with other numbers of input and output leaves";
const WIDE: &str = "previews with 64 output leaves";

/// The comparison of previews.
pub struct Previews;

impl Kind for Previews {
    type Mistake = PreviewMistake;

    const COMMAND: &'static str = "preview";
    const CALLS: &'static [&'static str] = &["sheet_preview", "sheet_run"];
    const WHAT: &'static str = "previews";
    const CASES: &'static str = "--previews";
    const LEAST: u64 = 50_000;
    const LENGTH_CODE: u8 = WRONG_OUTPUT_LENGTH;
    const ITEM: usize = 1;
    const QUOTAS: &'static [(&'static str, u64)] = &[
        (DELAYS, 20_000),
        (DELAYS_MOVE, 10_000),
        (DELAYS_SHOW, 2_000),
        (IN_FEEDBACKS, 5_000),
        (NESTED, 1_000),
        (SHARED, 5_000),
        (DEFINED, 15_000),
        (OTHER_LEAVES, 15_000),
        (WIDE, 200),
    ];
    const MISTAKES: &'static [(&'static str, PreviewMistake)] = &MISTAKES;

    fn items(circuit: &Circuit) -> usize {
        circuit.width(circuit.root())
    }

    fn second(case: &Case, mistake: Option<PreviewMistake>) -> Outcome {
        let Case { sheet, stimulus, slice_length, .. } = case;
        let outcome = preview(&Call { sheet, stimulus, output_length: *slice_length }, mistake);
        Outcome { answer: outcome.answer, slice: outcome.outputs }
    }

    fn archive(sheet: &[u8], stimulus: &[u8], slice: &mut [u8]) -> u64 {
        archive::preview(sheet, stimulus, slice)
    }

    fn wrong(case: &Case, left: &Left) -> Option<String> {
        unlike_run(case, left.packed, &left.slices[0]).map(str::to_string)
    }

    fn counts(case: &Case) -> Vec<(&'static str, bool)> {
        let Ok(circuit) = Circuit::read(&case.sheet) else { return Vec::new() };
        let records = read(&case.sheet);
        let has = |kind: u16| records.iter().any(|record| record[KIND] == kind);
        let mut watch = Watch::nothing();
        let mut stepper = Stepper::<Right>::new(&circuit, IN_FORCE, &mut watch);
        let outputs = stepper.cycle(&case.stimulus);
        let moves = stepper.next_sheet(&case.sheet) != case.sheet;
        let after = stepper.look(&case.stimulus);
        vec![
            (DELAYS, has(DELAY)),
            (DELAYS_MOVE, moves),
            (DELAYS_SHOW, outputs != after),
            (IN_FEEDBACKS, moves && has(FEEDBACK)),
            (NESTED, nestings(&records).contains(&3)),
            (SHARED, choices_on(&records).into_iter().any(|count| count > 1)),
            (DEFINED, outputs.iter().any(|&leaf| leaf != 0)),
            (OTHER_LEAVES, outputs.len() != case.stimulus.len()),
            (WIDE, outputs.len() == 64),
        ]
    }
}

/// The archive's run of the same cycle on a copy puts out the same, and refuses
/// the same but for code 8.
fn unlike_run(case: &Case, packed: u64, slice: &[u8]) -> Option<&'static str> {
    if packed == (Answer { code: WRONG_STIMULUS, place: 0 }.packed()) {
        return None;
    }
    let copy = case.sheet.clone();
    let mut next = vec![0; copy.len()];
    let mut outputs = slice.to_vec();
    outputs.iter_mut().for_each(|leaf| *leaf = !*leaf);
    let kept = outputs.clone();
    let ran = run_of_archive(&copy, &case.stimulus, &mut outputs, &mut next);
    let (as_answered, shown) = if packed == Answer::accepted(0).packed() {
        // A run's place is the number of cycles.
        (ran == Answer::accepted(1).packed(), outputs == slice)
    } else {
        (ran == packed, outputs == kept)
    };
    (!as_answered || !shown).then_some("the archive's run of this cycle gives something else")
}
