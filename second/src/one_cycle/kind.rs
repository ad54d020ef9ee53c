//! A kind of call that takes a sheet and one cycle of input and fills one slice.

use crate::accepted::Circuit;
use crate::answers::Answer;
use crate::frame::lender::Left;

/// A call to compare. The slice's length is counted in items.
#[derive(Clone)]
pub struct Case {
    pub source: String,
    pub sheet: Vec<u8>,
    pub stimulus: Vec<u8>,
    pub slice_length: usize,
}

/// What the second implementation gives: the bytes of the slice, none where it
/// is left unaltered.
pub struct Outcome {
    pub answer: Answer,
    pub slice: Option<Vec<u8>>,
}

/// What is particular to a kind of call.
pub trait Kind: Sync {
    type Mistake: Copy + Sync + 'static;

    const COMMAND: &'static str;
    /// The function of the archive, and the others that it is compared with.
    const CALLS: &'static [&'static str];
    /// What the last line counts, and the option for how many.
    const WHAT: &'static str;
    const CASES: &'static str;
    /// How many calls are to be accepted at least.
    const LEAST: u64;
    /// The code for a slice of the wrong length.
    const LENGTH_CODE: u8;
    /// How many bytes an item of the slice has.
    const ITEM: usize;
    /// The quotas of the counts that this kind has of its own.
    const QUOTAS: &'static [(&'static str, u64)];
    const MISTAKES: &'static [(&'static str, Self::Mistake)];

    /// How many items the slice of an accepted sheet has.
    fn items(circuit: &Circuit) -> usize;

    fn second(case: &Case, mistake: Option<Self::Mistake>) -> Outcome;

    fn archive(sheet: &[u8], stimulus: &[u8], slice: &mut [u8]) -> u64;

    /// What is wrong with the archive's answer and slice, whatever the second
    /// implementation gives.
    fn wrong(_case: &Case, _left: &Left) -> Option<String> {
        None
    }

    /// What comes up in an accepted call.
    fn counts(case: &Case) -> Vec<(&'static str, bool)>;
}
