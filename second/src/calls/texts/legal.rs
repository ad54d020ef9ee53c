//! Texts that keep the rules of texts, and lengths of the slice.

use super::case::{Case, Texts};
use super::tally::{self, QUOTAS};
use crate::answers::NO_ROOM;
use crate::frame::comparison::{self, Ended, SHARDS};
use crate::frame::tally::least;
use crate::generate::circuits::circuit;
use crate::generate::network::network;
use crate::generate::small::small;
use crate::random::Random;
use crate::records::{MAX_RECORDS, RECORD_BYTES};
use crate::text::generate::sentence::Sentence;
use crate::text::generate::{circuits, free, sizes};
use crate::text::tokens::LONGEST_TEXT;
use crate::text::translator::translate;

type Comparer<'a> = comparison::Comparer<'a, Texts>;

/// No longer slice is lent; it is more than a sheet can need.
const LONGEST_SLICE: usize = 200_000;

pub fn share(name: &str) -> u64 {
    least(&QUOTAS, name).div_ceil(SHARDS)
}

/// The text of a random circuit.
fn of_circuit(random: &mut Random) -> Sentence {
    let draft = match random.below(20) {
        0 => network(random),
        1..=12 => small(random),
        _ => circuit(random),
    };
    circuits::sentence(&draft, random)
}

/// A text whose names are right.
pub fn good(random: &mut Random) -> Sentence {
    if random.one_in(3) {
        return of_circuit(random);
    }
    let room = random.range(1, 40);
    free::sentence(room, false, random)
}

/// The length of the slice that a text needs; 0 if it is refused before.
fn needed(text: &[u8]) -> usize {
    let answer = translate(text, 0).answer;
    if answer.code == NO_ROOM {
        answer.place as usize
    } else {
        0
    }
}

/// A call whose slice is long enough for a sheet.
pub fn case(source: &str, text: Vec<u8>, random: &mut Random) -> Case {
    let more = if random.one_in(2) { 0 } else { random.below(100) };
    let slice_length = (needed(&text) + more).min(LONGEST_SLICE);
    Case { source: source.to_string(), text, slice_length }
}

/// Circuits that keep every rule: their runs are compared with the meaning.
pub fn of_circuits(to: &mut Comparer, texts: u64, random: &mut Random) -> Ended {
    for _ in 0..texts {
        let (text, _) = of_circuit(random).spell(random);
        let case = case("circuits", text, random);
        to.translations_run(&case, random)?;
    }
    Ok(())
}

/// Texts of any types: some sheets are refused by the check.
pub fn of_any_types(to: &mut Comparer, random: &mut Random) -> Ended {
    for _ in 0..2 * share(tally::REFUSED) {
        let room = random.range(1, 60);
        let (text, _) = free::sentence(room, false, random).spell(random);
        let case = case("any types", text, random);
        to.translations_run(&case, random)?;
    }
    Ok(())
}

/// Each text into slices of all kinds of lengths.
pub fn slices(to: &mut Comparer, random: &mut Random) -> Ended {
    while to.tally.got(tally::WHOLE) < share(tally::WHOLE) {
        let (text, _) = good(random).spell(random);
        let needed = needed(&text);
        if needed == 0 || needed > RECORD_BYTES * MAX_RECORDS {
            continue;
        }
        let lengths = [
            (tally::WHOLE, needed),
            (tally::LONGER, needed + random.range(1, 30)),
            (tally::NONE, 0),
            (tally::BYTE_SHORT, needed - 1),
            (tally::RECORD_SHORT, needed - RECORD_BYTES),
            (tally::SHORTER, random.below(needed)),
        ];
        for (name, slice_length) in lengths {
            to.translations(&Case { source: name.to_string(), text: text.clone(), slice_length })?;
            to.tally.add(name, 1);
        }
    }
    Ok(())
}

/// 4,096 records and more, 65,535 bytes and more, very many brackets.
pub fn large(to: &mut Comparer, random: &mut Random) -> Ended {
    for _ in 0..share(tally::MOST_RECORDS) {
        let many = random.range(MAX_RECORDS + 2, 15_000);
        let counts = [
            (tally::MOST_RECORDS, MAX_RECORDS),
            (tally::TOO_MANY_RECORDS, MAX_RECORDS + 1),
            (tally::MANY_RECORDS, many),
        ];
        for (name, count) in counts {
            let (text, _) = sizes::of_records(count, random).spell(random);
            let needed = RECORD_BYTES * count;
            let more = if random.one_in(2) { 0 } else { random.below(9_000) };
            let slice_length = (needed + more).min(LONGEST_SLICE);
            to.translations(&Case { source: name.to_string(), text, slice_length })?;
            to.tally.add(name, 1);
        }
    }
    for _ in 0..share(tally::LONGEST) {
        let more = random.range(2, 9_000);
        for (name, bytes) in [
            (tally::LONGEST, LONGEST_TEXT),
            (tally::TOO_LONG, LONGEST_TEXT + 1),
            (tally::TOO_LONG, LONGEST_TEXT + more),
        ] {
            let text = sizes::of_bytes(&good(random), bytes, random);
            to.translations(&case(name, text, random))?;
            to.tally.add(name, 1);
        }
    }
    for _ in 0..share(tally::DEEP) {
        let text = sizes::deep(random);
        to.translations(&case(tally::DEEP, text, random))?;
        to.tally.add(tally::DEEP, 1);
    }
    Ok(())
}
