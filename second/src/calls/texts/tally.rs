//! What was compared, and the quotas it has to meet.

use crate::answers::{ACCEPTED, NO_ROOM, WRONG_NAME, WRONG_TEXT};
use crate::frame::tally::{least, Quota, Tally};
use crate::text::generate::faults::Category;
use crate::text::positions::{positions, Position};
use crate::text::reading::{Illegal, Way, WAYS};

/// The least numbers of quotas about positions in the grammar, and about bad
/// names.
const POSITIONS: u64 = 150;
const BAD_NAMES: u64 = 52;
/// Of each code.
const CODES: [(u8, u64); 4] =
    [(ACCEPTED, 20_000), (WRONG_TEXT, 50_000), (WRONG_NAME, 20_000), (NO_ROOM, 5_000)];
/// For each position in the grammar: texts that leave it there.
pub const PER_POSITION: u64 = 400;
pub const PER_ENDED_POSITION: u64 = 100;
pub const PER_CATEGORY: u64 = 560;
const PER_WAY: u64 = 400;
/// The bytes of the shortest sheet.
pub const LEAST_SHEET: usize = 36;
/// At least so many of the texts made for a category have to be refused there.
const PERCENT_HIT: u64 = 80;

pub const RUN: &str = "accepted sheets whose run is the meaning's";
pub const REFUSED: &str = "sheets that the check refuses";
pub const WHOLE: &str = "0: slice of the sheet's length";
pub const LONGER: &str = "0: longer slice";
pub const NONE: &str = "15: slice of 0 bytes";
pub const BYTE_SHORT: &str = "15: slice short of a byte";
pub const RECORD_SHORT: &str = "15: slice short of a record";
pub const SHORTER: &str = "15: slice shorter";
pub const MOST_RECORDS: &str = "0: 4,096 records";
pub const TOO_MANY_RECORDS: &str = "15: 4,097 records";
pub const MANY_RECORDS: &str = "15: over 4,097 records";
pub const LONGEST: &str = "texts of 65,535 bytes translated";
pub const TOO_LONG: &str = "texts of 65,536 bytes, else legal, refused with 13";
pub const DEEP: &str = "texts in very many brackets";
pub const DAMAGED: &str = "texts damaged by a byte";
pub const RANDOM: &str = "random bytes";
pub const PREFIXES: &str = "prefixes of T";
pub const BYTES: &str = "single-byte changes of T";
pub const PAIR: &str = "14: constant pair without a type, its parts with one";
pub const OUTER_PAIR: &str = "14: constant pair over a part without a type";
pub const LATER_NAME: &str = "14: bad name after a constant pair without a type";
pub const TWO_BAD: &str = "14: the first of two bad names";
pub const SHORT_ILLEGAL: &str = "13: slice shorter than any sheet";
pub const SHORT_BAD_NAME: &str = "14: slice shorter than any sheet";
pub const RUN_HIDDEN: &str = "run, a name that hides another";
pub const RUN_FEEDBACK: &str = "run, a feedback";
pub const RUN_HELD_PAIR: &str = "run, a constant pair in a DELAY";
pub const RUN_PARTS: &str = "run, a part of a part";
pub const RUN_CHAIN: &str = "run, several alternatives in a part of a pair pattern";

/// The quotas of the named counts.
pub const QUOTAS: [(&str, u64); 29] = [
    (RUN, 20_000),
    (RUN_HIDDEN, 2_000),
    (RUN_FEEDBACK, 2_000),
    (RUN_HELD_PAIR, 2_000),
    (RUN_PARTS, 2_000),
    (RUN_CHAIN, 2_000),
    (REFUSED, 4_000),
    (WHOLE, 3_000),
    (LONGER, 3_000),
    (NONE, 400),
    (BYTE_SHORT, 400),
    (RECORD_SHORT, 400),
    (SHORTER, 400),
    (MOST_RECORDS, 40),
    (TOO_MANY_RECORDS, 40),
    (MANY_RECORDS, 40),
    (LONGEST, 40),
    (TOO_LONG, 40),
    (DEEP, 80),
    (DAMAGED, 36_000),
    (RANDOM, 6_000),
    (PREFIXES, 100),
    (BYTES, 25_000),
    (PAIR, 400),
    (OUTER_PAIR, 400),
    (LATER_NAME, 400),
    (TWO_BAD, 2_000),
    (SHORT_ILLEGAL, 4_000),
    (SHORT_BAD_NAME, 200),
];

const QUOTAS_OF_POSITIONS: &str = "quotas about texts outside the grammar";
const QUOTAS_OF_BAD_NAMES: &str = "quotas about bad names";

/// The name of the count of texts that leave the grammar in a way.
pub fn of_way(way: Way) -> String {
    let words = WAYS.iter().find(|(w, _)| *w == way).map_or("", |(_, words)| words);
    format!("13: {words}")
}

/// The name of the count of texts that leave the grammar at a position, at a
/// byte or at their end.
pub fn of_position(position: Position, ended: bool) -> String {
    format!("13{}: {}", if ended { ", ended" } else { "" }, position.words())
}

/// The name of the count of texts with a bad name of a category.
pub fn of_category(category: &Category) -> String {
    format!("14: {}", category.name)
}

/// Counts where and how a text leaves the grammar.
pub fn add_illegal(tally: &mut Tally, illegal: &Illegal) {
    tally.add(&of_way(illegal.way), 1);
    if illegal.way != Way::TooLong {
        tally.add(&of_position(illegal.position, illegal.way == Way::Ended), 1);
    }
}

/// The quotas of counts.
fn of_counts(categories: &[Category]) -> Vec<Quota> {
    let of_code = |(code, least)| Quota::new(format!("texts with code {code}"), least);
    let mut quotas: Vec<Quota> = CODES.into_iter().map(of_code).collect();
    quotas.extend(Quota::all(&QUOTAS));
    for (way, _) in WAYS {
        let least = if way == Way::TooLong { least(&QUOTAS, TOO_LONG) } else { PER_WAY };
        quotas.push(Quota::new(of_way(way), least));
    }
    for position in positions() {
        quotas.push(Quota::new(of_position(position, false), PER_POSITION));
        if position.needed.is_some() {
            quotas.push(Quota::new(of_position(position, true), PER_ENDED_POSITION));
        }
    }
    let of_name =
        |category: &Category| Quota::of_hundred(of_category(category), PER_CATEGORY, PERCENT_HIT);
    quotas.extend(categories.iter().map(of_name));
    quotas
}

/// Every quota: those of counts, and how many there are of these.
pub fn quotas(categories: &[Category]) -> Vec<Quota> {
    let mut quotas = of_counts(categories);
    quotas.push(Quota::new(QUOTAS_OF_POSITIONS, POSITIONS));
    quotas.push(Quota::new(QUOTAS_OF_BAD_NAMES, BAD_NAMES));
    quotas
}

/// Counts the quotas themselves.
pub fn complete(tally: &mut Tally, categories: &[Category]) {
    for (name, start) in [(QUOTAS_OF_POSITIONS, "13"), (QUOTAS_OF_BAD_NAMES, "14: ")] {
        let quotas = of_counts(categories);
        let about = quotas.iter().filter(|quota| quota.name.starts_with(start));
        tally.add(name, about.count() as u64);
    }
}
