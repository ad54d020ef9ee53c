//! One replay, and how both implementations are compared on it.

use super::archive::{self, Replayed};
use super::replay::{Call, Outcome};
use crate::answers::Answer;
use crate::calls::runs::archive::run as run_of_archive;
use crate::frame::comparison;
use crate::frame::lender::Left;
use crate::frame::report::Shown;

/// The most bytes of each slice of a replay.
pub const ROOMS: [usize; 5] = [1 << 20, 1 << 18, 1 << 23, 1 << 20, NUMBERS];

/// The bytes of the numbers beside the answer.
const NUMBERS: usize = 3 * 8;

/// A call to compare.
#[derive(Clone)]
pub struct Case {
    pub source: String,
    pub sheet: Vec<u8>,
    pub stimulus: Vec<u8>,
    pub recorded: Vec<u8>,
    pub next_length: usize,
}

impl Case {
    pub fn call(&self) -> Call<'_> {
        let Case { sheet, stimulus, recorded, next_length, .. } = self;
        Call { sheet, stimulus, recorded, next_length: *next_length }
    }
}

/// The numbers beside the answer as bytes.
pub fn beside(outcome: &Outcome) -> Vec<u8> {
    outcome.numbers().map(u64::to_le_bytes).concat()
}

/// The numbers of eight bytes each.
fn numbers(bytes: &[u8]) -> Vec<u64> {
    let number = |eight: &[u8]| eight.iter().rev().fold(0, |n, byte| (n << 8) + u64::from(*byte));
    bytes.chunks(8).map(number).collect()
}

impl comparison::Case for Case {
    const FILLED: &'static [&'static str] = &["next", "differs, cycle and leaf"];

    fn source(&self) -> &str {
        &self.source
    }

    fn read(&self) -> Vec<(&'static str, Shown, &[u8])> {
        vec![
            ("sheet", Shown::Sheet, &self.sheet),
            ("stimulus", Shown::Bytes, &self.stimulus),
            ("record", Shown::Bytes, &self.recorded),
        ]
    }

    fn lengths(&self) -> Vec<usize> {
        vec![self.next_length, NUMBERS]
    }

    fn archive(slices: &mut [&mut [u8]]) -> u64 {
        let [sheet, stimulus, recorded, next, filled] = slices else {
            unreachable!("five slices")
        };
        let replayed = archive::replay(sheet, stimulus, recorded, next);
        let Replayed { result, differs, cycle, leaf } = replayed;
        filled.copy_from_slice(&[differs, cycle, leaf].map(u64::to_le_bytes).concat());
        result
    }

    fn wrong(&self, left: &Left) -> Option<String> {
        let shows = !Answer::accepts(left.packed) || shown_by_run(self, left);
        (!shows).then(|| "the archive's run of the same call shows something else".to_string())
    }
}

/// Whether the archive's run shows what is found of a record: that its outputs
/// are the record, with the cycles and the next sheet; or that they are up to
/// the place that is given, and not there.
fn shown_by_run(case: &Case, left: &Left) -> bool {
    let Case { sheet, stimulus, recorded, .. } = case;
    let (mut outputs, mut next) = (vec![0; recorded.len()], vec![0; sheet.len()]);
    let ran = run_of_archive(sheet, stimulus, &mut outputs, &mut next);
    let Answer { place: cycles, .. } = Answer::unpacked(ran);
    if !Answer::accepts(ran) {
        return false;
    }
    match numbers(&left.slices[1])[..] {
        [0, done, 0] => {
            done == u64::from(cycles) && outputs == *recorded && next == left.slices[0]
        }
        [1, cycle, leaf] => {
            let leaves = outputs.len().checked_div(cycles as usize).unwrap_or(0);
            let at = cycle as usize * leaves + leaf as usize;
            (leaf as usize) < leaves
                && at < outputs.len()
                && outputs[..at] == recorded[..at]
                && outputs[at] != recorded[at]
        }
        _ => false,
    }
}
