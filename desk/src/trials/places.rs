//! The layout with places, against the sheets of the archive.

use desk::archive;
use desk::circuit::Circuit;
use desk::explain::refused_sheet;
use desk::layout::{layout, Layout};
use desk::message::Place;
use desk::source::Source;
use second::answers::{Answer, ACCEPTED};
use second::random::Random;
use second::text::generate::sizes;

/// Compares so many layouts with the archive's sheets, byte by byte. Every
/// record comes from a token of the text, and every refusal of the check is told
/// at a place in the text.
pub fn run(count: u64) -> bool {
    let mut random = Random::new(35);
    let (mut compared, mut records, mut refused, mut codes) = (0, 0, 0, [0; 8]);
    while compared < count {
        let text = match random.below(200) {
            0 => sizes::deep(&mut random),
            _ => super::texts::sentence(&mut random).spell(&mut random).0,
        };
        let Ok(sheet) = archive::translate(&text) else { continue };
        let Some(layout) = layout(&text) else {
            return report("no layout", &text);
        };
        if !layout.is(&sheet) {
            return report("other records than the archive's", &text);
        }
        if !(0..layout.records.len()).all(|record| from_token(&layout, record, &text)) {
            return report("a record comes from no token", &text);
        }
        compared += 1;
        records += layout.records.len();
        let source = Source { name: "text".to_string(), bytes: text.clone() };
        let Ok(circuit) = Circuit::read(source) else { return false };
        let answer = circuit.check();
        if answer.code != ACCEPTED {
            refused += 1;
            codes[usize::from(answer.code)] += 1;
            if !by_number(&circuit, answer) {
                return report("no number of a record where no place is certain", &text);
            }
            let messages = refused_sheet(&circuit, answer);
            let told = matches!(messages[0].place, Place::At(_));
            let general = messages[0].sentence.contains("rule is broken");
            if !told || general {
                return report(&messages[0].sentence, &circuit.source.bytes);
            }
        }
    }
    println!("compared {compared} layouts of {records} records, {refused} refused: {codes:?}");
    codes[5] > 0 && codes[6] > 0 && codes[7] > 0
}

/// Whether a record comes from a token of the text.
fn from_token(layout: &Layout, record: usize, text: &[u8]) -> bool {
    layout.piece(record).is_some_and(|piece| {
        let token = text.get(piece.place).is_some_and(|byte| !byte.is_ascii_whitespace());
        token && piece.place < piece.end && piece.end <= text.len()
    })
}

/// Whether a refusal is told by the number of its record where the layout is not
/// that of the sheet.
fn by_number(circuit: &Circuit, answer: Answer) -> bool {
    let source = Source { name: "sheet".to_string(), bytes: Vec::new() };
    let (sheet, records) = (circuit.sheet.clone(), circuit.records.clone());
    let unknown = Circuit { source, sheet, records, layout: None };
    let messages = refused_sheet(&unknown, answer);
    messages[0].place == Place::Record(answer.place as usize)
}

pub fn report(what: &str, text: &[u8]) -> bool {
    println!("{what}: {}", String::from_utf8_lossy(text));
    false
}
