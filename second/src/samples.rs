//! Small sheets written out by hand: T and the circuits of the bench cases.

use crate::records::{bytes, Record, C};

/// Records from the words given, the others 0; the header's count filled in.
pub fn from_words(words: &[&[u16]]) -> Vec<Record> {
    let mut records: Vec<Record> = words
        .iter()
        .map(|given| std::array::from_fn(|k| given.get(k).copied().unwrap_or(0)))
        .collect();
    records[0][C] = records.len() as u16;
    records
}

/// The sheet T of 17 records.
pub fn t() -> Vec<u8> {
    bytes(&from_words(&[
        &[1, 1, 1, 2],
        &[16, 0, 2],
        &[38, 0, 1, 3, 16],
        &[40, 0, 1, 4, 5],
        &[64, 0, 2],
        &[39, 0, 6, 8, 15, 7],
        &[33, 0, 1],
        &[49, 0, 1, 1],
        &[39, 0, 9, 11, 13, 10],
        &[33],
        &[49, 0, 1, 2],
        &[32, 0, 1, 12],
        &[64, 0, 1],
        &[32, 0, 1, 14],
        &[64, 0, 2],
        &[33],
        &[33],
    ]))
}

/// T and the circuits of the bench cases.
pub fn bench_cases() -> [Vec<u8>; 6] {
    [t(), and(), not_feedback(), pair_feedback(), self_feedback(), two_pairs()]
}

/// The stimulus on which docs/SHEETS.md, "Sheet T", runs T.
pub fn stimulus() -> Vec<u8> {
    vec![1, 2, 1]
}

/// AND: pattern (1,1), then 1, else 2.
pub fn and() -> Vec<u8> {
    bytes(&from_words(&[
        &[1, 1, 2, 3],
        &[16, 2, 2],
        &[17, 0, 1, 1],
        &[39, 0, 4, 8, 10, 5],
        &[33],
        &[50, 0, 6, 7],
        &[49, 0, 1, 1],
        &[49, 0, 1, 1],
        &[32, 0, 1, 9],
        &[64, 0, 1],
        &[32, 0, 1, 11],
        &[64, 0, 2],
    ]))
}

/// A NOT fed back on itself.
pub fn not_feedback() -> Vec<u8> {
    bytes(&from_words(&[
        &[1, 1, 1, 2],
        &[16, 0, 2],
        &[38, 0, 1, 3, 10],
        &[39, 0, 4, 6, 8, 5],
        &[33],
        &[49, 0, 1, 1],
        &[32, 0, 1, 7],
        &[64, 0, 2],
        &[32, 0, 1, 9],
        &[64, 0, 1],
        &[33],
    ]))
}

/// A feedback of a pair of bits, defined as (hi, its own first part).
pub fn pair_feedback() -> Vec<u8> {
    bytes(&from_words(&[
        &[1, 1, 1, 3],
        &[16, 2, 2],
        &[17, 0, 1, 1],
        &[38, 0, 2, 4, 9],
        &[34, 0, 5, 7],
        &[32, 0, 1, 6],
        &[64, 0, 1],
        &[35, 0, 8],
        &[33],
        &[33],
    ]))
}

/// A feedback defined as itself.
pub fn self_feedback() -> Vec<u8> {
    bytes(&from_words(&[&[1, 1, 1, 2], &[16, 0, 2], &[38, 0, 1, 3, 4], &[33], &[33]]))
}

/// The pattern (1,1)|(2,2) on a pair of bits.
pub fn two_pairs() -> Vec<u8> {
    bytes(&from_words(&[
        &[1, 1, 2, 3],
        &[16, 2, 2],
        &[17, 0, 1, 1],
        &[39, 0, 4, 11, 13, 5],
        &[33],
        &[50, 8, 6, 7],
        &[49, 0, 1, 1],
        &[49, 0, 1, 1],
        &[50, 0, 9, 10],
        &[49, 0, 1, 2],
        &[49, 0, 1, 2],
        &[32, 0, 1, 12],
        &[64, 0, 1],
        &[32, 0, 1, 14],
        &[64, 0, 2],
    ]))
}
