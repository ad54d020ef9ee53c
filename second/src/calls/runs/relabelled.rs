//! One call on a sheet and on the same with other labels: the verdict, the
//! answer and the outputs are to be the same, and so the next sheets but for
//! the labels, which stay.

use super::case::Case;
use super::cases::any;
use super::faults::broken;
use super::mistakes::RunMistake;
use super::ordered::{Pair, Pairs};
use crate::answers::{Answer, WRONG_NEXT_LENGTH, WRONG_RECORD};
use crate::calls::checks::archive::check as check_of_archive;
use crate::faults::categories;
use crate::frame::lender::Lender;
use crate::generate::labels::relabel;
use crate::labels::{labels, repeated, without_labels};
use crate::random::Random;
use crate::records::{bytes, read, RECORD_BYTES};
use crate::rule::IN_FORCE;

const OTHERS: &str = "pairs of accepted sheets with other labels";
const CHANGED: &str = "pairs with other labels whose delays change";
const TWICE: &str = "pairs of accepted sheets of which one has a label twice";
const REFUSED: &str = "pairs of refused sheets with other labels";

/// Pairs of sheets that differ in labels alone.
pub struct Relabelled;

impl Pairs for Relabelled {
    const COMMAND: &'static str = "relabelled";
    const WHAT: &'static str = "pairs";
    const CASES: &'static str = "--pairs";
    const LEAST: u64 = 20_000;
    const QUOTAS: &'static [(&'static str, u64)] =
        &[(OTHERS, 5_000), (CHANGED, 3_000), (TWICE, 1_000), (REFUSED, 500)];
    const MISTAKES: &'static [(&'static str, RunMistake)] =
        &[("labels-cleared", RunMistake::LabelsCleared)];
    const CALLS: &'static [&'static str] = &["sheet_check", "sheet_run"];

    /// Both runs by the archive, or by the second simulator with a mistake.
    fn make(lender: &mut Lender, mistake: Option<RunMistake>, random: &mut Random) -> Option<Pair> {
        let cases = cases(random)?;
        Some(Pair::of(cases, lender, mistake, IN_FORCE))
    }

    fn counts(pair: &Pair) -> Vec<(&'static str, bool)> {
        let [one, other] = [0, 1].map(|k| &pair.cases[k].sheet);
        let accepted = Answer::accepts(check_of_archive(one));
        let (differ, ran) = (one != other, Answer::accepts(pair.left[0].packed));
        let twice = |sheet: &[u8]| !repeated(&labels(sheet)).is_empty();
        vec![
            (OTHERS, differ && accepted),
            (CHANGED, differ && ran && pair.left[0].next != *one),
            (TWICE, accepted && twice(one) != twice(other)),
            (REFUSED, differ && !accepted),
        ]
    }

    fn faults(pair: &Pair) -> Vec<String> {
        let [first, second] = &pair.left;
        let [one, other] = [0, 1].map(|k| &pair.cases[k].sheet);
        let accepted = Answer::accepts(first.packed);
        let kept = |k: usize| labels(&pair.left[k].next) == labels(&pair.cases[k].sheet);
        let same_next = without_labels(&first.next) == without_labels(&second.next);
        let plain = [
            (pair.altered, "the archive's run altered bytes that it may not"),
            (check_of_archive(one) != check_of_archive(other), "the verdicts differ"),
            (first.packed != second.packed, "the answers differ"),
            (accepted && first.outputs != second.outputs, "the outputs differ"),
            (accepted && !same_next, "the next sheets differ in more than labels"),
            (accepted && !(kept(0) && kept(1)), "the labels do not stay"),
        ];
        plain.iter().filter(|(wrong, _)| *wrong).map(|(_, words)| words.to_string()).collect()
    }
}

/// A call, and the same with other labels.
fn cases(random: &mut Random) -> Option<[Case; 2]> {
    let case = match random.below(4) {
        0 => {
            let code = random.range(WRONG_RECORD.into(), WRONG_NEXT_LENGTH.into()) as u8;
            broken(&[code], &categories(), random)?.0
        }
        _ => any("one call", random)?,
    };
    if case.sheet.len() % RECORD_BYTES != 0 {
        return None;
    }
    let mut records = read(&case.sheet);
    relabel(&mut records, random);
    let other = Case { sheet: bytes(&records), ..case.clone() };
    Some([case, other])
}
