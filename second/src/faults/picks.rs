//! Random records and numbers for faults.

use crate::random::Random;
use crate::records::{sort, Record, HEADER, KINDS};

/// The number of a random record outside the header that passes a test.
pub fn some_record(
    records: &[Record],
    random: &mut Random,
    passes: impl Fn(usize, &Record) -> bool,
) -> Option<usize> {
    let found: Vec<usize> = (1..records.len()).filter(|&i| passes(i, &records[i])).collect();
    random.pick(&found)
}

/// A number at or past the count: the count itself, close to it, or any.
pub fn past_count(records: &[Record], random: &mut Random) -> u16 {
    let count = records.len();
    match random.below(3) {
        0 => count as u16,
        1 => (count + random.below(300)) as u16,
        _ => random.range(count, 65_535) as u16,
    }
}

/// A number other than 0, often with one bit set.
pub fn nonzero(random: &mut Random) -> u16 {
    match random.below(3) {
        0 => 1 << random.below(16),
        1 => random.range(1, 20) as u16,
        _ => random.range(1, 65_535) as u16,
    }
}

/// A kind that is not in the table; often close to one that is.
pub fn unknown_kind(random: &mut Random) -> u16 {
    loop {
        let kind = match random.below(4) {
            0 => random.below(70) as u16,
            1 => random.pick(&[0, 2, 15, 18, 31, 41, 47, 51, 63, 65]).unwrap_or(0),
            2 => random.pick(&KINDS).unwrap_or(0) | (256 << random.below(8)),
            _ => random.word(),
        };
        if kind != HEADER && sort(kind).is_none() {
            return kind;
        }
    }
}
