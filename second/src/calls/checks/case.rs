//! One sheet, and how both checks are compared on it.

use super::archive;
use super::mistakes::check;
use crate::answers::Answer;
use crate::faults::category::Category;
use crate::frame::comparison::{Case, Comparer, Given, Halt};
use crate::frame::report::Shown;

/// The comparison of the checks.
pub struct Checks {
    pub categories: Vec<Category>,
}

struct Sheet<'a> {
    source: &'a str,
    sheet: &'a [u8],
}

impl Case for Sheet<'_> {
    const FILLED: &'static [&'static str] = &[];

    fn source(&self) -> &str {
        self.source
    }

    fn read(&self) -> Vec<(&'static str, Shown, &[u8])> {
        vec![("sheet", Shown::Sheet, self.sheet)]
    }

    fn lengths(&self) -> Vec<usize> {
        Vec::new()
    }

    fn archive(slices: &mut [&mut [u8]]) -> u64 {
        archive::check(slices[0])
    }
}

impl Comparer<'_, Checks> {
    /// Compares both verdicts on a sheet; hands back the verdict.
    pub fn verdict(&mut self, source: &str, sheet: &[u8]) -> Result<Answer, Halt> {
        let verdict = check(sheet, self.mistake);
        self.compare(&Sheet { source, sheet }, |_| Given::new(verdict, Vec::new()))?;
        Ok(verdict)
    }
}
