//! What a refusal is about, for people.

mod fault;
pub mod grammar;
pub mod naming;
pub mod records;
pub mod scope;
pub mod tokens;
pub mod typing;

use second::answers::{Answer, ILL_TYPED, NO_ROOM, WRONG_NAME, WRONG_TEXT};
use second::records::{MAX_RECORDS, RECORD_BYTES};

use crate::circuit::Circuit;
use crate::message::{Message, Place};
use crate::source::Source;
use crate::wording::grouped;

/// A text that is not translated: 13, 14 or 15.
pub fn refused_text(source: &Source, answer: Answer) -> Vec<Message> {
    let place = answer.place as usize;
    match answer.code {
        WRONG_TEXT => grammar::explain(source, place),
        WRONG_NAME => naming::explain(source, place),
        NO_ROOM => {
            let (records, most) = (grouped(place / RECORD_BYTES), grouped(MAX_RECORDS));
            let sentence = format!("the sheet would have {records} records: at most {most}");
            vec![Message::error(Place::File, sentence)]
        }
        code => vec![unknown(code)],
    }
}

/// A sheet that the check refuses: 1 to 7.
pub fn refused_sheet(circuit: &Circuit, answer: Answer) -> Vec<Message> {
    match answer.code {
        ILL_TYPED => typing::explain(circuit, answer.place as usize),
        _ => records::explain(circuit, answer),
    }
}

fn unknown(code: u8) -> Message {
    Message::error(Place::File, format!("refused by code {code}"))
}
