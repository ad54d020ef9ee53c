//! Replays with faults: in the sheet, the stimulus or a length.

use super::case::Case;
use super::cases::Ran;
use super::replay::WRONG_RECORDED_LENGTH;
use super::tally;
use crate::answers::WRONG_OUTPUT_LENGTH;
use crate::calls::runs::case::Case as RunCase;
use crate::calls::runs::faults::broken as broken_run;
use crate::calls::runs::tally as of_runs;
use crate::faults::category::Category;
use crate::fuzz::random_bytes;
use crate::random::Random;
use crate::simulator::ready;

/// A call with faults of some codes; the ways in which those from 8 on were
/// made. A run with the same faults, whose output slice is the record.
pub fn broken(
    codes: &[u8],
    categories: &[Category],
    random: &mut Random,
) -> Option<(Case, Vec<&'static str>)> {
    let of_run = |&code: &u8| match code {
        WRONG_RECORDED_LENGTH => WRONG_OUTPUT_LENGTH,
        code => code,
    };
    let codes: Vec<u8> = codes.iter().map(of_run).collect();
    let (run, ways) = broken_run(&codes, categories, random)?;
    let mut case = with_record(run, random);
    for way in &ways {
        case.source = case.source.replace(way, of_record(way));
    }
    Some((case, ways.into_iter().map(of_record).collect()))
}

/// The way to break rule 17 that is one to break rule 10; others stay.
fn of_record(way: &'static str) -> &'static str {
    match way {
        of_runs::OUT_SHORTER => tally::SHORTER,
        of_runs::OUT_LONGER => tally::LONGER,
        of_runs::OUT_NONE => tally::EMPTY,
        of_runs::OUT_OF_NO_CYCLES => tally::OF_NO_CYCLES,
        way => way,
    }
}

/// The replay of a record as long as a run's output slice: its outputs, cut or
/// made longer, where there is a run; any bytes where there is none, and in one
/// call of four.
pub fn with_record(case: RunCase, random: &mut Random) -> Case {
    let length = case.output_length;
    let mut recorded = match outputs(&case) {
        Some(outputs) if !random.one_in(4) => outputs,
        _ => Vec::new(),
    };
    recorded.truncate(length);
    recorded.extend(random_bytes(length - recorded.len(), random));
    let RunCase { source, sheet, stimulus, next_length, .. } = case;
    Case { source, sheet, stimulus, recorded, next_length }
}

/// The outputs of a run, whatever lengths it is lent.
fn outputs(case: &RunCase) -> Option<Vec<u8>> {
    let output_length = ready(&case.sheet, &case.stimulus).ok()?.output_length;
    let next_length = case.sheet.len();
    Ran::of(&RunCase { output_length, next_length, ..case.clone() }).map(|ran| ran.outputs)
}
