//! Mistakes in the report, so that the comparison can be shown to find them.
//! They alter what the report is handed or what it gives, or replace a rule.

use std::collections::BTreeSet;

use super::changes::{before, Change, OutputRecord, Rules, RULES};
use super::report::{opened, recorded, report, report_by, Files, Line, Report};
use crate::answers::{Answer, NO_FILE};
use crate::calls::runs::mistakes::{run, RunMistake};
use crate::simulator::ready;
use crate::stimulus;
use crate::values::at_or_below;

#[derive(Clone, Copy, PartialEq, Eq, Debug)]
pub enum ReportMistake {
    /// Each cycle is compared with the first.
    ChangesFromFirst,
    /// The first cycle is compared with undefined in every leaf.
    FirstCycleCounted,
    /// The first cycle has a change at every leaf.
    FirstCycleChanges,
    /// The last cycle is not compared.
    LastCycleNotCounted,
    /// Each cycle is compared with the one two before it.
    TwoBefore,
    /// Each byte is compared with the one before it in the outputs.
    ByteBefore,
    /// 0 against a value is no change.
    ChangesByOrder,
    /// From 0 to a value is no change.
    FromUndefinedNotCounted,
    /// From a value to 0 is no change.
    ToUndefinedNotCounted,
    /// From a higher value to a lower is no change.
    RisesOnly,
    /// Leaves are counted that have the value that they had.
    EqualCounted,
    /// The total is of the cycles with a change.
    CyclesWithAChange,
    /// The total is of the leaves with a change.
    LeavesWithAChange,
    /// The total leaves out the last leaf.
    TotalOfLinesButLast,
    /// The total is that of the last leaf.
    TotalOfLast,
    /// The output has as many leaves as the input.
    LeavesOfInput,
    /// Leaves are counted from 1.
    LeavesFromOne,
    /// The changes are printed as the leaf, and the leaf as the changes.
    Swapped,
    /// Every line is that of leaf 0.
    FirstLeafForAll,
    /// A leaf without a change has no line.
    ChangedLeavesOnly,
    /// A run of no cycles has no line for a leaf.
    NoLinesOfNoCycles,
    /// The numbers of the leaves are kept in a byte.
    LinesInAByte,
    /// The total is kept in 16 bits.
    TotalIn16Bits,
    /// Of two files that can't be opened the stimulus is told.
    StimulusFirst,
    /// A missing stimulus is told after what is wrong with the sheet.
    RefusalBeforeMissing,
    /// A missing stimulus is taken for an empty one.
    MissingIsEmpty,
    /// An empty stimulus is refused by code 8.
    EmptyRefused,
    /// The next sheet is written.
    NextWritten,
    Run(RunMistake),
}

/// Every mistake and its name.
pub const MISTAKES: &[(&str, ReportMistake)] = &[
    ("changes-from-first", ReportMistake::ChangesFromFirst),
    ("first-cycle-counted", ReportMistake::FirstCycleCounted),
    ("first-cycle-changes", ReportMistake::FirstCycleChanges),
    ("last-cycle-not-counted", ReportMistake::LastCycleNotCounted),
    ("two-before", ReportMistake::TwoBefore),
    ("byte-before", ReportMistake::ByteBefore),
    ("changes-by-order", ReportMistake::ChangesByOrder),
    ("from-undefined-not-counted", ReportMistake::FromUndefinedNotCounted),
    ("to-undefined-not-counted", ReportMistake::ToUndefinedNotCounted),
    ("rises-only", ReportMistake::RisesOnly),
    ("equal-counted", ReportMistake::EqualCounted),
    ("cycles-with-a-change", ReportMistake::CyclesWithAChange),
    ("leaves-with-a-change", ReportMistake::LeavesWithAChange),
    ("total-of-lines-but-last", ReportMistake::TotalOfLinesButLast),
    ("total-of-last", ReportMistake::TotalOfLast),
    ("leaves-of-input", ReportMistake::LeavesOfInput),
    ("leaves-from-one", ReportMistake::LeavesFromOne),
    ("leaf-and-changes-swapped", ReportMistake::Swapped),
    ("first-leaf-for-all", ReportMistake::FirstLeafForAll),
    ("changed-leaves-only", ReportMistake::ChangedLeavesOnly),
    ("no-lines-of-no-cycles", ReportMistake::NoLinesOfNoCycles),
    ("lines-in-a-byte", ReportMistake::LinesInAByte),
    ("total-in-16-bits", ReportMistake::TotalIn16Bits),
    ("stimulus-first", ReportMistake::StimulusFirst),
    ("refusal-before-missing", ReportMistake::RefusalBeforeMissing),
    ("missing-is-empty", ReportMistake::MissingIsEmpty),
    ("empty-refused", ReportMistake::EmptyRefused),
    ("next-written", ReportMistake::NextWritten),
    ("undefined-everywhere", ReportMistake::Run(RunMistake::UndefinedEverywhere)),
    ("cycle-zero-again", ReportMistake::Run(RunMistake::CycleZeroAgain)),
    ("output-one-leaf-off", ReportMistake::Run(RunMistake::OutputOneLeafOff)),
    ("earlier-rule", ReportMistake::Run(RunMistake::EarlierRule)),
];

/// The rules with a mistake in one of them; none for a mistake elsewhere.
fn wrong_rules(mistake: ReportMistake) -> Option<Rules> {
    let rules = match mistake {
        ReportMistake::ChangesFromFirst => {
            let first = |record: &OutputRecord, at: Change| Some(record.value(0, at.leaf));
            Rules { before: first, ..RULES }
        }
        ReportMistake::FirstCycleCounted => {
            Rules { before: |record, at| before(record, at).or(Some(0)), ..RULES }
        }
        ReportMistake::FirstCycleChanges => {
            let other = |record: &OutputRecord, at: Change| {
                before(record, at).or(Some(!record.value(at.cycle, at.leaf)))
            };
            Rules { before: other, ..RULES }
        }
        ReportMistake::LastCycleNotCounted => {
            let but_last = |record: &OutputRecord, at: Change| {
                before(record, at).filter(|_| at.cycle + 1 < record.cycles())
            };
            Rules { before: but_last, ..RULES }
        }
        ReportMistake::TwoBefore => {
            let two = |record: &OutputRecord, Change { cycle, leaf }: Change| {
                cycle.checked_sub(2).map(|cycle| record.value(cycle, leaf))
            };
            Rules { before: two, ..RULES }
        }
        ReportMistake::ByteBefore => {
            let byte = |record: &OutputRecord, Change { cycle, leaf }: Change| {
                let place = cycle * record.leaves + leaf;
                (cycle > 0).then(|| record.outputs[place - 1])
            };
            Rules { before: byte, ..RULES }
        }
        ReportMistake::ChangesByOrder => Rules {
            differ: |before, now| {
                !at_or_below(&[before], &[now]) && !at_or_below(&[now], &[before])
            },
            ..RULES
        },
        ReportMistake::FromUndefinedNotCounted => {
            Rules { differ: |before, now| !at_or_below(&[before], &[now]), ..RULES }
        }
        ReportMistake::ToUndefinedNotCounted => {
            Rules { differ: |before, now| !at_or_below(&[now], &[before]), ..RULES }
        }
        ReportMistake::RisesOnly => Rules { differ: |before, now| before < now, ..RULES },
        ReportMistake::EqualCounted => Rules { differ: |before, now| before == now, ..RULES },
        ReportMistake::CyclesWithAChange => {
            Rules { many: |changes| different(changes, |change| change.cycle), ..RULES }
        }
        ReportMistake::LeavesWithAChange => {
            Rules { many: |changes| different(changes, |change| change.leaf), ..RULES }
        }
        _ => return None,
    };
    Some(rules)
}

/// How many different numbers some changes have.
fn different(changes: &[Change], number: fn(&Change) -> usize) -> usize {
    changes.iter().map(number).collect::<BTreeSet<usize>>().len()
}

/// The report of some files, or what a mistake makes of it.
pub fn found(files: Files, mistake: Option<ReportMistake>) -> Result<Report, Answer> {
    let of_run = match mistake {
        Some(ReportMistake::Run(mistake)) => Some(mistake),
        Some(ReportMistake::EmptyRefused) => Some(RunMistake::EmptyRefused),
        _ => None,
    };
    let opened = match opened(files) {
        Ok(opened) => opened,
        Err(answer) => return instead_of_missing(files, answer, mistake),
    };
    let mut record = recorded(|call| run(call, of_run), opened)?;
    let Some(mistake) = mistake else { return Ok(report(&record)) };
    if mistake == ReportMistake::LeavesOfInput {
        let [sheet, stimulus] = opened;
        record.leaves = stimulus::leaves(&ready(sheet, stimulus)?.circuit);
    }
    Ok(match wrong_rules(mistake) {
        Some(rules) => report_by(&rules, &record),
        None => altered(report(&record), &record, mistake),
    })
}

/// What a mistake makes of a refusal by code 12.
fn instead_of_missing(
    files: Files,
    answer: Answer,
    mistake: Option<ReportMistake>,
) -> Result<Report, Answer> {
    match (mistake, files) {
        (Some(ReportMistake::StimulusFirst), [None, None]) => {
            Err(Answer { code: NO_FILE, place: 2 })
        }
        (Some(ReportMistake::RefusalBeforeMissing), [Some(sheet), None]) => {
            Err(ready(sheet, &[]).err().unwrap_or(answer))
        }
        (Some(ReportMistake::MissingIsEmpty), [Some(sheet), None]) => {
            found([Some(sheet), Some(&[])], None)
        }
        _ => Err(answer),
    }
}

/// What a mistake makes of a report.
fn altered(report: Report, record: &OutputRecord, mistake: ReportMistake) -> Report {
    let Report { mut lines, mut total } = report;
    let last = lines.last().map_or(0, |line| line.changes);
    match mistake {
        ReportMistake::TotalOfLinesButLast => total -= last,
        ReportMistake::TotalOfLast => total = last,
        ReportMistake::LeavesFromOne => lines.iter_mut().for_each(|line| line.leaf += 1),
        ReportMistake::Swapped => {
            let swapped = |line: &mut Line| {
                *line = Line { leaf: line.changes, changes: line.leaf };
            };
            lines.iter_mut().for_each(swapped);
        }
        ReportMistake::FirstLeafForAll => {
            let first = lines[0].changes;
            lines.iter_mut().for_each(|line| line.changes = first);
        }
        ReportMistake::ChangedLeavesOnly => lines.retain(|line| line.changes > 0),
        ReportMistake::NoLinesOfNoCycles if record.cycles() == 0 => lines.clear(),
        ReportMistake::LinesInAByte => lines.iter_mut().for_each(|line| line.changes %= 1 << 8),
        ReportMistake::TotalIn16Bits => total %= 1 << 16,
        _ => {}
    }
    Report { lines, total }
}
