//! Mistakes in the translation, so that the comparison can be shown to find
//! them. They alter what a step gives, or replace one of the rules of a step.

use crate::answers::{ACCEPTED, NO_ROOM, WRONG_TEXT};
use crate::records::RECORD_BYTES;
use crate::text::naming::{Entry, Step};
use crate::text::reading::{tokens, Illegal, Way};
use crate::text::syntax::{Expression, Name};
use crate::text::translator::{self, records_by, syntax_by, written, Outcome, Rules, RULES};

#[derive(Clone, Copy, PartialEq, Eq, Debug)]
pub enum TextMistake {
    /// The place of 13 is the first byte of its word.
    PlaceAtToken,
    /// A name may have 17 letters.
    SeventeenLetters,
    /// A LET's name is known in its defining part.
    LetInOwnPart,
    /// A LET REC's name is not known in its defining part.
    FeedbackNotInOwnPart,
    /// A farther name hides a nearer one.
    FarthestName,
    /// The pairs of a constant have the last declared pair type of their parts.
    LastPairType,
    /// An undefined constant gets 65 leaves at most.
    SixtyFiveLeaves,
    /// An IF's pattern stands before its branches.
    PatternBeforeBranches,
    /// The parts of e[1][2] are taken in the other order.
    PartsTurnedRound,
    /// The place of 15 is the number of records.
    PlaceInRecords,
    /// The slice after the sheet stays as it is.
    NoZerosAfter,
    /// A text may have 65,536 bytes.
    OneByteMore,
}

/// Every mistake and its name.
pub const MISTAKES: [(&str, TextMistake); 12] = [
    ("place-at-token", TextMistake::PlaceAtToken),
    ("seventeen-letters", TextMistake::SeventeenLetters),
    ("let-in-own-part", TextMistake::LetInOwnPart),
    ("feedback-not-in-own-part", TextMistake::FeedbackNotInOwnPart),
    ("farthest-name", TextMistake::FarthestName),
    ("last-pair-type", TextMistake::LastPairType),
    ("sixty-five-leaves", TextMistake::SixtyFiveLeaves),
    ("pattern-before-branches", TextMistake::PatternBeforeBranches),
    ("parts-turned-round", TextMistake::PartsTurnedRound),
    ("place-in-records", TextMistake::PlaceInRecords),
    ("no-zeros-after", TextMistake::NoZerosAfter),
    ("one-byte-more", TextMistake::OneByteMore),
];

/// The mistake with this name.
pub fn named(name: &str) -> Option<TextMistake> {
    MISTAKES.iter().find(|(n, _)| *n == name).map(|(_, m)| *m)
}

/// The translation of a text, or what a mistake makes of it.
pub fn translate(text: &[u8], slice_length: usize, mistake: Option<TextMistake>) -> Outcome {
    let Some(mistake) = mistake else { return translator::translate(text, slice_length) };
    let rules = rules(mistake);
    let found = syntax_by(&rules, text).and_then(|mut syntax| {
        if mistake == TextMistake::PartsTurnedRound {
            turn_parts_round(&mut syntax.expressions);
        }
        records_by(&rules, &syntax)
    });
    let Outcome { mut answer, mut written } = written(found, slice_length);
    match mistake {
        TextMistake::PlaceAtToken if answer.code == WRONG_TEXT => answer.place = at_token(text),
        TextMistake::PlaceInRecords if answer.code == NO_ROOM => {
            answer.place /= RECORD_BYTES as u32;
        }
        TextMistake::NoZerosAfter if answer.code == ACCEPTED => {
            written.truncate(answer.place as usize);
        }
        _ => {}
    }
    Outcome { answer, written }
}

/// The rules that a mistake replaces.
fn rules(mistake: TextMistake) -> Rules {
    let mut rules = RULES;
    match mistake {
        TextMistake::SeventeenLetters => rules.limits.name += 1,
        TextMistake::OneByteMore => rules.limits.text += 1,
        TextMistake::SixtyFiveLeaves => rules.layout.most_leaves += 1,
        TextMistake::LetInOwnPart => rules.scope.bind = bound_in_own_part,
        TextMistake::FeedbackNotInOwnPart => rules.scope.bind_feedback = bound_in_body_alone,
        TextMistake::FarthestName => rules.scope.meant = |places| places.next(),
        TextMistake::LastPairType => rules.pairs = |_, last| last,
        TextMistake::PatternBeforeBranches => {
            rules.layout.choice = |[tested, then, other, pattern]| [tested, pattern, then, other];
        }
        TextMistake::PlaceAtToken
        | TextMistake::PartsTurnedRound
        | TextMistake::PlaceInRecords
        | TextMistake::NoZerosAfter => {}
    }
    rules
}

/// A LET whose name is known in its defining part too, but does not count there.
fn bound_in_own_part(name: &Name, defining: usize, body: usize) -> Vec<Step<'_>> {
    vec![
        Step::Take(name),
        Step::Enter(Entry { letters: &name.letters, counted: false }),
        Step::Visit(defining),
        Step::Leave,
        Step::enter(name),
        Step::Visit(body),
        Step::Leave,
    ]
}

/// A LET REC whose name is not known in its defining part, but counts there.
fn bound_in_body_alone(name: &Name, defining: usize, body: usize) -> Vec<Step<'_>> {
    vec![
        Step::Take(name),
        Step::Enter(Entry { letters: "", counted: true }),
        Step::Visit(defining),
        Step::Leave,
        Step::enter(name),
        Step::Visit(body),
        Step::Leave,
    ]
}

/// The first byte of the word in which or after which a text leaves the grammar,
/// else the byte at which it does.
fn at_token(text: &[u8]) -> u32 {
    let Err(Illegal { place, way, .. }) = tokens(text) else { return 0 };
    let of_word = [Way::InWord, Way::LongName, Way::AfterWord].contains(&way);
    let letters = text[..place].iter().rev().take_while(|byte| byte.is_ascii_alphabetic());
    (place - if of_word { letters.count() } else { 0 }) as u32
}

/// Takes the parts in each row of [1] and [2] in the other order.
fn turn_parts_round(expressions: &mut [Expression]) {
    let part = |expression: &Expression| match expression {
        Expression::First(of) | Expression::Second(of) => Some(*of),
        _ => None,
    };
    let mut below_part = vec![false; expressions.len()];
    for number in (0..expressions.len()).rev() {
        let mut row = Vec::new();
        let mut next = Some(number).filter(|_| !below_part[number]);
        while let Some(of) = next.and_then(|at| part(&expressions[at]).map(|of| (at, of))) {
            row.push(of.0);
            below_part[of.1] = true;
            next = Some(of.1);
        }
        let firsts: Vec<bool> =
            row.iter().map(|&at| matches!(expressions[at], Expression::First(_))).collect();
        for (&at, first) in row.iter().zip(firsts.into_iter().rev()) {
            let of = part(&expressions[at]).unwrap_or(0);
            expressions[at] = if first { Expression::First(of) } else { Expression::Second(of) };
        }
    }
}
