//! Code 13: what stands where the text leaves the grammar, and what may stand
//! there. The archive's translation says both: a token may stand there if the
//! text so far with the token behind it is legal up to its end.

use second::answers::WRONG_TEXT;
use second::text::tokens::{is_blank, LONGEST_TEXT};

use super::fault::{Fault, TOKENS};
use super::tokens::{open, words};
use crate::archive::translation_answer;
use crate::message::{Mark, Message, Place};
use crate::source::{Piece, Source};
use crate::wording::grouped;

/// The bytes of a byte order mark.
const BYTE_ORDER_MARK: &[u8] = b"\xef\xbb\xbf";

/// Whether a text is legal up to its end.
fn legal(text: &[u8]) -> bool {
    let answer = translation_answer(text);
    answer.code != WRONG_TEXT || answer.place as usize >= text.len()
}

/// Whether a text is legal as it is.
fn complete(text: &[u8]) -> bool {
    translation_answer(text).code != WRONG_TEXT
}

fn with(text: &[u8], token: &str) -> Vec<u8> {
    [text, b" ", token.as_bytes(), b" "].concat()
}

/// The word or sign at which a text leaves the grammar.
fn found(text: &[u8], place: usize) -> Piece {
    let letter = |at: usize| text.get(at).is_some_and(u8::is_ascii_alphabetic);
    let in_word = place > 0 && letter(place - 1);
    let ended_too_soon = in_word && !letter(place) && !legal(&[&text[..place], b" "].concat());
    if !letter(place) && !ended_too_soon {
        let rest = &text[place..];
        let whole =
            (1..=4).find(|n| rest.get(..*n).is_some_and(|b| std::str::from_utf8(b).is_ok()));
        return Piece::new(place, (place + whole.unwrap_or(1)).min(text.len()));
    }
    let before = text[..place].iter().rev().take_while(|byte| byte.is_ascii_alphabetic()).count();
    let after = text[place..].iter().take_while(|byte| byte.is_ascii_alphabetic()).count();
    Piece::new(place - before, place + after)
}

/// What is wrong at a place of a text, and what may stand there.
pub fn explain(source: &Source, place: usize) -> Vec<Message> {
    let text = &source.bytes;
    let place = place.min(text.len());
    if let Some(message) = bytes_outside(source, place) {
        return vec![message];
    }
    let found = found(text, place);
    let so_far = &text[..found.place];
    let before = words(so_far);
    let tried = TOKENS.iter().map(|(token, _)| *token);
    let expected = tried.filter(|token| legal(&with(so_far, token))).collect();
    let (open, whole) = (open(&before), complete(so_far));
    Fault { source, place, found, before, open, expected, whole }.explain()
}

/// Texts and bytes that need no look at the grammar.
fn bytes_outside(source: &Source, place: usize) -> Option<Message> {
    let text = &source.bytes;
    let rest = &text[place..];
    let at = |length: usize, sentence: String| {
        let around = Piece::new(place, place + length);
        Some(Message::error(Place::At(Mark { caret: place, around }), sentence))
    };
    if place == text.len() && text.iter().all(|byte| is_blank(*byte)) {
        return at(0, "the text is empty: a circuit begins with `TYPE`".to_string());
    }
    if text.len() > LONGEST_TEXT && place >= LONGEST_TEXT {
        let (bytes, most) = (grouped(text.len()), grouped(LONGEST_TEXT));
        return at(0, format!("the text has {bytes} bytes: at most {most}"));
    }
    match rest {
        _ if place == 0 && rest.starts_with(BYTE_ORDER_MARK) => {
            at(0, "the text begins with a byte order mark: save it without one".to_string())
        }
        [b'\t', ..] => {
            at(0, "this is a tab: only spaces and line ends stand between words".to_string())
        }
        [0xc2, 0xa0, ..] => {
            let only = "only spaces and line ends stand between words";
            at(0, format!("this is a no-break space: {only}"))
        }
        [b'\r', b'\n', ..] => {
            at(0, "this line ends with CR LF: save the text with LF alone".to_string())
        }
        [b'\r', ..] => at(0, "this is a carriage return: lines end with LF alone".to_string()),
        [b'#', ..] => at(1, "a text has no comments".to_string()),
        [b'-', b'-', ..] | [b'/', b'/' | b'*', ..] => at(2, "a text has no comments".to_string()),
        _ => None,
    }
}
