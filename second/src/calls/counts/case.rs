//! One count, and how both implementations are compared on it.

use super::archive::{self, Counted};
use super::counting::{each_input, inputs, Call, Counters, NONE};
use crate::accepted::Circuit;
use crate::answers::Answer;
use crate::calls::runs::archive::run as run_of_archive;
use crate::frame::comparison;
use crate::frame::lender::Left;
use crate::frame::report::Shown;

/// The archive's runs of all inputs are looked at where there are at most so
/// many.
const FEW: usize = 16;

/// A call to compare.
#[derive(Clone)]
pub struct Case {
    pub source: String,
    pub sheet: Vec<u8>,
    pub leaf: usize,
}

impl Case {
    pub fn call(&self) -> Call<'_> {
        Call { sheet: &self.sheet, leaf: self.leaf }
    }

    /// The call as slices.
    pub fn lent(&self) -> Lent<'_> {
        Lent { case: self, leaf: self.leaf.to_le_bytes() }
    }
}

/// A call as slices: the number of the output leaf is one more to read, and the
/// counters that are given beside the answer are one to fill.
pub struct Lent<'a> {
    case: &'a Case,
    leaf: [u8; 8],
}

/// The counters as bytes.
pub fn beside(counters: &Counters) -> Vec<u8> {
    counters.map(u32::to_le_bytes).concat()
}

/// The number that its bytes give, the lowest first.
fn number(bytes: &[u8]) -> u64 {
    bytes.iter().rev().fold(0, |n, byte| (n << 8) + u64::from(*byte))
}

impl comparison::Case for Lent<'_> {
    const FILLED: &'static [&'static str] = &["counter"];

    fn source(&self) -> &str {
        &self.case.source
    }

    fn read(&self) -> Vec<(&'static str, Shown, &[u8])> {
        vec![
            ("sheet", Shown::Sheet, &self.case.sheet),
            ("output leaf", Shown::Bytes, &self.leaf),
        ]
    }

    fn lengths(&self) -> Vec<usize> {
        vec![size_of::<Counters>()]
    }

    fn archive(slices: &mut [&mut [u8]]) -> u64 {
        let [sheet, leaf, filled] = slices else { unreachable!("three slices") };
        let Counted { result, counters } = archive::count(sheet, number(leaf) as usize);
        filled.copy_from_slice(&beside(&counters));
        result
    }

    fn wrong(&self, left: &Left) -> Option<String> {
        let accepted = Answer::accepts(left.packed);
        let by_runs = accepted.then(|| counted_by_runs(self.case)).flatten();
        let differ = by_runs.is_some_and(|counters| counters != left.slices[0]);
        differ.then(|| "the archive's runs of all inputs give other counters".to_string())
    }
}

/// The counters of the archive's runs of all inputs on copies, as bytes; none
/// where there are many.
fn counted_by_runs(case: &Case) -> Option<Vec<u8>> {
    let circuit = Circuit::read(&case.sheet).ok().filter(|circuit| inputs(circuit) <= FEW)?;
    let one_cycle = Answer::accepted(1).packed();
    let counts = circuit.counts(circuit.input());
    let values: Vec<_> = counts.into_iter().map(|count| 1..=count).collect();
    let mut outputs = vec![0; circuit.width(circuit.root())];
    let mut next = vec![0; case.sheet.len()];
    let mut counters = NONE;
    each_input(&values, |input| {
        let ran = run_of_archive(&case.sheet, input, &mut outputs, &mut next) == one_cycle;
        if let (true, Some(value)) = (ran, outputs.get(case.leaf)) {
            counters[usize::from(*value)] += 1;
        }
    });
    Some(beside(&counters))
}
