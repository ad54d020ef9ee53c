//! Mistakes in the check, so that the comparison can be shown to find them.
//! They alter the verdict, or replace one of the rules that it takes.

use std::collections::HashMap;

use crate::answers::{
    Answer, ACCEPTED, ILL_TYPED, TOO_DEEP, WRONG_HEADER, WRONG_LENGTH, WRONG_NAMING, WRONG_RECORD,
    WRONG_TYPE,
};
use crate::records::{
    read, root, Record, Sort, Word, A, B, C, D, DELAY, FLAT, KIND, NEXT, PAIR_PATTERN, PAIR_TYPE,
};
use crate::structure::pattern_of_choice;
use crate::typing::Typing;
use crate::verdict::{self, Rules, RULES};

#[derive(Clone, Copy, PartialEq, Eq, Debug)]
pub enum CheckMistake {
    /// No sheet is accepted.
    RefuseAll,
    /// Sheets with this code are taken for accepted.
    NoCode(u8),
    /// The highest instead of the lowest record, for 3 to 6.
    HighestRecord,
    /// An IF's pattern judged after its branches.
    PatternLate,
    /// Another limit of leaves than 64.
    Leaves(u64),
    /// Another limit of depth than 64.
    Depth(usize),
    /// Another limit of bytes than 49,152.
    Length(usize),
    /// Another limit of nested feedbacks than three.
    Nesting(usize),
    /// Types compared by shape instead of by record.
    ShapeEquality,
    /// Several next words may name one pattern record.
    SharingByNext,
    /// Several words of pair patterns may name one pattern record.
    SharingByPairPattern,
    /// Several words may name one expression.
    SharingOfExpressions,
    /// Several IFs may not name one pattern.
    NoSharing,
    /// A pattern that an IF has judged is not judged again for another.
    JudgedOnce,
    /// A delay with a label is refused with code 3.
    LabelsRefused,
}

/// Every mistake and its name.
pub const MISTAKES: [(&str, CheckMistake); 23] = [
    ("refuse-all", CheckMistake::RefuseAll),
    ("no-code-3", CheckMistake::NoCode(WRONG_RECORD)),
    ("no-code-4", CheckMistake::NoCode(WRONG_NAMING)),
    ("no-code-5", CheckMistake::NoCode(WRONG_TYPE)),
    ("no-code-6", CheckMistake::NoCode(TOO_DEEP)),
    ("no-code-7", CheckMistake::NoCode(ILL_TYPED)),
    ("highest-record", CheckMistake::HighestRecord),
    ("pattern-late", CheckMistake::PatternLate),
    ("leaves-65", CheckMistake::Leaves(65)),
    ("leaves-63", CheckMistake::Leaves(63)),
    ("depth-65", CheckMistake::Depth(65)),
    ("depth-63", CheckMistake::Depth(63)),
    ("length-49164", CheckMistake::Length(49_164)),
    ("length-49140", CheckMistake::Length(49_140)),
    ("nesting-4", CheckMistake::Nesting(4)),
    ("nesting-2", CheckMistake::Nesting(2)),
    ("shape-equality", CheckMistake::ShapeEquality),
    ("sharing-by-next", CheckMistake::SharingByNext),
    ("sharing-by-pair-pattern", CheckMistake::SharingByPairPattern),
    ("sharing-of-expressions", CheckMistake::SharingOfExpressions),
    ("no-sharing", CheckMistake::NoSharing),
    ("judged-once", CheckMistake::JudgedOnce),
    ("labels-refused", CheckMistake::LabelsRefused),
];

/// The mistake with this name.
pub fn named(name: &str) -> Option<CheckMistake> {
    MISTAKES.iter().find(|(n, _)| *n == name).map(|(_, m)| *m)
}

/// The verdict on a sheet, or what a mistake makes of it.
pub fn check(sheet: &[u8], mistake: Option<CheckMistake>) -> Answer {
    let Some(mistake) = mistake else { return verdict::check(sheet) };
    let answer = verdict::check_by(&rules(mistake), sheet);
    match mistake {
        CheckMistake::RefuseAll if answer.code == ACCEPTED => {
            Answer { code: ILL_TYPED, place: root(&read(sheet)) as u32 }
        }
        CheckMistake::NoCode(code) if answer.code == code => {
            Answer::accepted(u32::from(read(sheet)[0][A]))
        }
        CheckMistake::LabelsRefused => labels_refused(sheet, answer),
        _ => answer,
    }
}

/// The rules that a mistake replaces.
fn rules(mistake: CheckMistake) -> Rules {
    let mut rules = RULES;
    let Rules { structure, typing } = &mut rules;
    match mistake {
        CheckMistake::Leaves(most) => structure.leaves = most,
        CheckMistake::Depth(most) => structure.depth = most,
        CheckMistake::Length(most) => structure.length = most,
        CheckMistake::Nesting(most) => structure.nesting = most,
        CheckMistake::HighestRecord => structure.told = |breaking| breaking.next_back(),
        CheckMistake::SharingByNext => {
            structure.shares = |kind, index, asked| {
                asked == Word::Next(Sort::Pattern) || pattern_of_choice(kind, index, asked)
            };
        }
        CheckMistake::SharingByPairPattern => {
            structure.shares = |kind, index, asked| {
                (kind == PAIR_PATTERN && index != NEXT) || pattern_of_choice(kind, index, asked)
            };
        }
        CheckMistake::SharingOfExpressions => {
            structure.shares = |kind, index, asked| {
                asked == Word::Part(Sort::Expression) || pattern_of_choice(kind, index, asked)
            };
        }
        CheckMistake::NoSharing => structure.shares = |_, _, _| false,
        CheckMistake::ShapeEquality => typing.standing = lowest_of_shape,
        CheckMistake::PatternLate => typing.choice = pattern_late,
        CheckMistake::JudgedOnce => typing.choice = judged_once,
        CheckMistake::RefuseAll | CheckMistake::NoCode(_) | CheckMistake::LabelsRefused => {}
    }
    rules
}

/// Code 3 for the lowest delay with a label, if no lower record has it.
fn labels_refused(sheet: &[u8], answer: Answer) -> Answer {
    if [WRONG_LENGTH, WRONG_HEADER].contains(&answer.code) {
        return answer;
    }
    let labelled = |record: &Record| record[KIND] == DELAY && record[D] != 0;
    let delay = read(sheet).iter().position(labelled).map(|number| number as u32);
    match delay {
        Some(place) if answer.code != WRONG_RECORD || place < answer.place => {
            Answer { code: WRONG_RECORD, place }
        }
        _ => answer,
    }
}

/// The lowest record of the same shape.
fn lowest_of_shape(records: &[Record]) -> Vec<u16> {
    let mut standing: Vec<u16> = (0..records.len() as u16).collect();
    let mut shapes = HashMap::new();
    for (number, record) in records.iter().enumerate() {
        let shape = match record[KIND] {
            FLAT => (FLAT, record[A], 0),
            PAIR_TYPE => {
                let part = |word: usize| standing[usize::from(record[word])];
                (PAIR_TYPE, part(A), part(B))
            }
            _ => continue,
        };
        standing[number] = *shapes.entry(shape).or_insert(number as u16);
    }
    standing
}

/// An IF whose pattern is judged after its branches.
fn pattern_late(typing: &mut Typing, record: &Record, _: usize) -> Result<Option<u16>, usize> {
    let tested = typing.part(record, A)?;
    let then = typing.part(record, B)?;
    let other = typing.part(record, C)?;
    let fits = typing.pattern_fits(record[D], tested);
    Ok((fits && typing.same(then, other)).then_some(then))
}

/// An IF whose pattern is not judged if another one has judged it.
fn judged_once(typing: &mut Typing, record: &Record, number: usize) -> Result<Option<u16>, usize> {
    let tested = typing.part(record, A)?;
    let judged = typing.types[usize::from(record[D])] != 0;
    if !judged && !typing.pattern_fits(record[D], tested) {
        return Err(number);
    }
    let then = typing.part(record, B)?;
    let other = typing.part(record, C)?;
    Ok(typing.same(then, other).then_some(then))
}
