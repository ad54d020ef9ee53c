//! Faults of the header: code 2.

use super::category::Category;
use super::picks::{nonzero, past_count, some_record, unknown_kind};
use crate::answers::WRONG_HEADER;
use crate::records::{sort, Record, Sort, A, B, C, D, HEADER, KIND, NEXT, WORD_NAMES};

const NAMING: [(usize, Sort); 3] = [(NEXT, Sort::Type), (A, Sort::Type), (B, Sort::Expression)];

pub fn categories() -> Vec<Category> {
    let mut all = vec![
        Category::words(WRONG_HEADER, "header: kind", |records, random| {
            records[0][KIND] =
                if random.one_in(2) { random.below(70) as u16 } else { random.word() };
            records[0][KIND] != HEADER
        }),
        Category::words(WRONG_HEADER, "header: count", |records, random| {
            let count = records.len() as u16;
            records[0][C] = match random.below(4) {
                0 => count + 1,
                1 => count - 1,
                2 => count ^ (1 << random.below(16)),
                _ => random.word(),
            };
            records[0][C] != count
        }),
        Category::words(WRONG_HEADER, "header: d", |records, random| {
            records[0][D] = nonzero(random);
            true
        }),
    ];
    for (word, wanted) in NAMING {
        all.extend(naming(word, wanted));
    }
    all
}

/// Each way in which a word of the header can name a wrong record.
fn naming(word: usize, wanted: Sort) -> Vec<Category> {
    let name = |what: &str| format!("header: {} {what}", WORD_NAMES[word]);
    vec![
        Category::words(WRONG_HEADER, name("is 0"), move |records, _| {
            records[0][word] = 0;
            true
        }),
        Category::words(WRONG_HEADER, name("past the count"), move |records, random| {
            records[0][word] = past_count(records, random);
            true
        }),
        Category::words(WRONG_HEADER, name("of another sort"), move |records, random| {
            let other = |_: usize, r: &Record| sort(r[KIND]) != Some(wanted);
            let Some(number) = some_record(records, random, other) else { return false };
            records[0][word] = number as u16;
            true
        }),
        Category::words(WRONG_HEADER, name("of unknown kind"), move |records, random| {
            let number = usize::from(records[0][word]);
            records[number][KIND] = unknown_kind(random);
            true
        }),
    ]
}
