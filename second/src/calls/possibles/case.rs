//! One call, and how both implementations are compared on it.

use super::archive;
use super::promises::not_kept_by_archive;
use super::remaining::{Call, NOT_FOR_SETS};
use crate::answers::Answer;
use crate::calls::previews::archive::preview;
use crate::frame::comparison;
use crate::frame::lender::Left;
use crate::frame::report::Shown;
use crate::one_cycle::kind::Case;

pub fn call_of(case: &Case) -> Call<'_> {
    let Case { sheet, stimulus, slice_length, .. } = case;
    Call { sheet, stimulus, output_length: *slice_length }
}

/// A call as slices, and whether its undefined leaves are filled to try what is
/// promised of it.
pub struct Lent<'a> {
    pub case: &'a Case,
    pub filled: bool,
}

impl comparison::Case for Lent<'_> {
    const FILLED: &'static [&'static str] = &["count"];

    fn source(&self) -> &str {
        &self.case.source
    }

    fn read(&self) -> Vec<(&'static str, Shown, &[u8])> {
        vec![
            ("sheet", Shown::Sheet, &self.case.sheet),
            ("stimulus", Shown::Bytes, &self.case.stimulus),
        ]
    }

    fn lengths(&self) -> Vec<usize> {
        vec![self.case.slice_length]
    }

    fn archive(slices: &mut [&mut [u8]]) -> u64 {
        let [sheet, stimulus, counts] = slices else { unreachable!("three slices") };
        archive::possible(sheet, stimulus, counts)
    }

    fn wrong(&self, left: &Left) -> Option<String> {
        let tried = self.filled && Answer::accepts(left.packed);
        let not_kept = || not_kept_by_archive(self.case, &left.slices[0]);
        unlike_preview(self.case, left).or_else(|| tried.then(not_kept).flatten())
    }
}

/// The archive's preview refuses the same calls with the same answers, but for
/// code 22, and where it defines an output leaf one constructor is counted.
fn unlike_preview(case: &Case, left: &Left) -> Option<String> {
    if Answer::unpacked(left.packed).code == NOT_FOR_SETS {
        return None;
    }
    let mut outputs = vec![0; case.slice_length];
    let packed = preview(&case.sheet, &case.stimulus, &mut outputs);
    let alone = outputs.iter().zip(&left.slices[0]).all(|(leaf, count)| *leaf == 0 || *count == 1);
    if packed != left.packed {
        Some("the archive's preview answers something else".to_string())
    } else if Answer::accepts(packed) && !alone {
        Some("a leaf that the archive's preview defines has not one constructor".to_string())
    } else {
        None
    }
}
