//! What `sheetreport` prints for the files of a folder: a line for each output
//! leaf and the total, or the line of the refusal.

use std::fmt::Write;

use super::changes::{changes_of, total, OutputRecord, Rules, RULES};
use crate::answers::{Answer, NO_FILE};
use crate::listing::refusal_line;
use crate::simulator::{ready, Call, Outcome};

/// What the two files hold, in the order in which they are tried: the sheet and
/// the stimulus; none for one that can't be opened.
pub type Files<'a> = [Option<&'a [u8]>; 2];

/// What is printed where nothing is refused.
#[derive(Clone, PartialEq, Eq, Debug)]
pub struct Report {
    pub lines: Vec<Line>,
    pub total: usize,
}

/// A leaf of the output, and the cycles in which it changed.
#[derive(Clone, Copy, PartialEq, Eq, Debug)]
pub struct Line {
    pub leaf: usize,
    pub changes: usize,
}

/// Both files, or code 12 at the first that can't be opened, counted from 1.
pub fn opened<'a>(files: Files<'a>) -> Result<[&'a [u8]; 2], Answer> {
    match files {
        [Some(sheet), Some(stimulus)] => Ok([sheet, stimulus]),
        [None, _] => Err(Answer { code: NO_FILE, place: 1 }),
        [_, None] => Err(Answer { code: NO_FILE, place: 2 }),
    }
}

/// The outputs of a run on two files whose slices have the right lengths, or
/// the refusal.
pub fn recorded(
    run: impl FnOnce(&Call) -> Outcome,
    [sheet, stimulus]: [&[u8]; 2],
) -> Result<OutputRecord, Answer> {
    let ready = ready(sheet, stimulus)?;
    let (output_length, next_length) = (ready.output_length, sheet.len());
    let outcome = run(&Call { sheet, stimulus, output_length, next_length });
    let outputs = outcome.outputs.ok_or(outcome.answer)?;
    Ok(OutputRecord { outputs, leaves: ready.leaves })
}

/// The report of a record.
pub fn report(record: &OutputRecord) -> Report {
    report_by(&RULES, record)
}

/// The report of a record by some rules: one line for each leaf, also where
/// there are no cycles.
pub fn report_by(rules: &Rules, record: &OutputRecord) -> Report {
    let line = |leaf| Line { leaf, changes: changes_of(rules, record, leaf) };
    Report { lines: (0..record.leaves).map(line).collect(), total: total(rules, record) }
}

/// The text of a report or of a refusal.
pub fn text(found: &Result<Report, Answer>) -> String {
    let Report { lines, total } = match found {
        Ok(report) => report,
        Err(answer) => return refusal_line(*answer),
    };
    let mut text = String::new();
    for Line { leaf, changes } in lines {
        let _ = writeln!(text, "leaf {leaf}: {changes}");
    }
    let _ = writeln!(text, "total {total}");
    text
}

/// What is wrong with a text, whatever the run is: it is neither a refusal nor a
/// report of leaves from 0 on whose total is the sum of their numbers.
pub fn wrong_text(printed: &str) -> Option<String> {
    if printed.starts_with("refused ") {
        return None;
    }
    let mut lines: Vec<&str> = printed.lines().collect();
    let total = lines.pop().and_then(|line| line.strip_prefix("total "));
    let of_leaf = |(leaf, line): (usize, &&str)| -> Option<u64> {
        line.strip_prefix(&format!("leaf {leaf}: "))?.parse().ok()
    };
    let sum: Option<u64> = lines.iter().enumerate().map(of_leaf).sum();
    match (sum, total.and_then(|total| total.parse::<u64>().ok())) {
        (Some(sum), Some(total)) if sum == total => None,
        (Some(sum), Some(total)) => Some(format!("the lines sum to {sum}, the total is {total}")),
        _ => Some("neither a refusal nor a report".to_string()),
    }
}
