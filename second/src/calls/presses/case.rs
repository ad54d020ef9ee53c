//! One press, and how both implementations are compared on it.

use super::archive::{self, Pressed};
use super::press::{Call, Outcome};
use crate::accepted::Circuit;
use crate::answers::Answer;
use crate::calls::runs::archive::run as run_of_archive;
use crate::frame::comparison;
use crate::frame::lender::Left;
use crate::frame::report::Shown;

/// A call to compare.
#[derive(Clone)]
pub struct Case {
    pub source: String,
    pub sheet: Vec<u8>,
    pub stimulus: Vec<u8>,
    pub leaf: usize,
}

impl Case {
    pub fn call(&self) -> Call<'_> {
        Call { sheet: &self.sheet, stimulus: &self.stimulus, leaf: self.leaf }
    }

    /// The call as slices.
    pub fn lent(&self) -> Lent<'_> {
        Lent { case: self, leaf: self.leaf.to_le_bytes() }
    }
}

/// A call as slices: the number of the output leaf is one more to read, and the
/// numbers that are given beside the answer are one to fill.
pub struct Lent<'a> {
    case: &'a Case,
    leaf: [u8; 8],
}

/// The numbers beside the answer as bytes.
pub fn beside(outcome: &Outcome) -> Vec<u8> {
    outcome.numbers().map(u64::to_le_bytes).concat()
}

/// The numbers of eight bytes each.
fn numbers(bytes: &[u8]) -> Vec<u64> {
    let number = |eight: &[u8]| eight.iter().rev().fold(0, |n, byte| (n << 8) + u64::from(*byte));
    bytes.chunks(8).map(number).collect()
}

impl comparison::Case for Lent<'_> {
    const FILLED: &'static [&'static str] = &["found, leaf and constructor"];

    fn source(&self) -> &str {
        &self.case.source
    }

    fn read(&self) -> Vec<(&'static str, Shown, &[u8])> {
        vec![
            ("sheet", Shown::Sheet, &self.case.sheet),
            ("stimulus", Shown::Bytes, &self.case.stimulus),
            ("output leaf", Shown::Bytes, &self.leaf),
        ]
    }

    fn lengths(&self) -> Vec<usize> {
        vec![3 * 8]
    }

    fn archive(slices: &mut [&mut [u8]]) -> u64 {
        let [sheet, stimulus, leaf, filled] = slices else { unreachable!("four slices") };
        let leaf = numbers(leaf)[0] as usize;
        let Pressed { result, found, leaf, constructor } = archive::press(sheet, stimulus, leaf);
        filled.copy_from_slice(&[found, leaf, constructor].map(u64::to_le_bytes).concat());
        result
    }

    fn wrong(&self, left: &Left) -> Option<String> {
        let shows = shown_by_run(self.case, left);
        (!shows).then(|| "the change does not alter that leaf in the archive's run".to_string())
    }
}

/// Whether the archive's run of the cycle and of the changed one on copies give
/// the output leaf two values, where a change is told.
fn shown_by_run(case: &Case, left: &Left) -> bool {
    let [1, leaf, constructor] = numbers(&left.slices[0])[..] else { return true };
    let Ok(circuit) = Circuit::read(&case.sheet) else { return false };
    let mut changed = case.stimulus.clone();
    let (Some(byte), Ok(to)) = (changed.get_mut(leaf as usize), u8::try_from(constructor)) else {
        return false;
    };
    *byte = to;
    let one_cycle = Answer::accepted(1).packed();
    let shown = |stimulus: &[u8]| {
        let sheet = case.sheet.clone();
        let mut next = vec![0; sheet.len()];
        let mut outputs = vec![0; circuit.width(circuit.root())];
        let ran = run_of_archive(&sheet, stimulus, &mut outputs, &mut next) == one_cycle;
        outputs.get(case.leaf).copied().filter(|_| ran)
    };
    match (shown(&case.stimulus), shown(&changed)) {
        (Some(before), Some(after)) => before != after,
        _ => false,
    }
}
