//! The whole verdict on a sheet: codes 0 to 7.

use crate::answers::Answer;
use crate::structure;
use crate::typing::{self, Typed};

/// The rules that a comparison can replace to make a mistake.
#[derive(Clone, Copy)]
pub struct Rules {
    pub structure: structure::Rules,
    pub typing: typing::Rules,
}

pub const RULES: Rules = Rules { structure: structure::RULES, typing: typing::RULES };

/// The verdict on any byte string.
pub fn check(sheet: &[u8]) -> Answer {
    check_by(&RULES, sheet)
}

/// The verdict by some rules.
pub fn check_by(rules: &Rules, sheet: &[u8]) -> Answer {
    match judge_by(rules, sheet) {
        Ok(typed) => Answer::accepted(u32::from(typed.output)),
        Err(answer) => answer,
    }
}

/// The types of an accepted sheet, or the answer to a refused one.
pub fn judge(sheet: &[u8]) -> Result<Typed, Answer> {
    judge_by(&RULES, sheet)
}

fn judge_by(rules: &Rules, sheet: &[u8]) -> Result<Typed, Answer> {
    structure::judge(sheet, &rules.structure)
        .and_then(|structure| typing::judge(&structure, &rules.typing))
}
