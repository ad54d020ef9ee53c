//! Faults of single words against the table, the numbering rule or the sort
//! asked for: code 3.

use super::category::Category;
use super::picks::{nonzero, past_count, some_record, unknown_kind};
use crate::answers::WRONG_RECORD;
use crate::random::Random;
use crate::records::{
    sort, words, Record, Sort, Word, A, B, CONSTRUCTOR, FLAT, HEADER, KIND, KINDS, LEAF, NEXT,
    PAIR_TYPE, WORD_NAMES,
};

pub fn categories() -> Vec<Category> {
    let mut all = kinds();
    all.extend(values());
    for kind in KINDS {
        let asked = words(kind).unwrap_or([Word::Zero; 5]);
        for (k, word) in asked.into_iter().enumerate() {
            all.extend(of_word(kind, NEXT + k, word));
        }
    }
    all
}

/// A record that the header doesn't name.
fn free(records: &[Record], number: usize) -> bool {
    ![NEXT, A, B].iter().any(|&w| usize::from(records[0][w]) == number)
}

/// A value for a word of the record with a number.
type Value = dyn Fn(&[Record], usize, &mut Random) -> Option<u16> + Send + Sync;

/// Changes one word of a random record of a kind.
fn change(
    kind: u16,
    word: usize,
    value: impl Fn(&[Record], usize, &mut Random) -> Option<u16>,
) -> impl Fn(&mut Vec<Record>, &mut Random) -> bool {
    move |records, random| {
        let Some(number) = some_record(records, random, |_, r| r[KIND] == kind) else {
            return false;
        };
        let Some(value) = value(records, number, random) else { return false };
        records[number][word] = value;
        true
    }
}

fn kinds() -> Vec<Category> {
    let mut all = Vec::new();
    for wanted in [Sort::Type, Sort::Expression, Sort::Pattern, Sort::Leaf] {
        let change = move |records: &mut Vec<Record>, random: &mut Random, kind: u16| {
            let of_sort = |i: usize, r: &Record| sort(r[KIND]) == Some(wanted) && free(records, i);
            let Some(number) = some_record(records, random, of_sort) else { return false };
            records[number][KIND] = kind;
            true
        };
        let name = format!("kind: unknown, for a {wanted:?}").to_lowercase();
        all.push(Category::words(WRONG_RECORD, name, move |records, random| {
            let kind = unknown_kind(random);
            change(records, random, kind)
        }));
        let name = format!("kind: 1 for a {wanted:?}").to_lowercase();
        all.push(Category::words(WRONG_RECORD, name, move |records, random| {
            change(records, random, HEADER)
        }));
        let name = format!("kind: another sort for a {wanted:?}").to_lowercase();
        all.push(Category::words(WRONG_RECORD, name, move |records, random| {
            let others = KINDS.into_iter().filter(|&k| sort(k) != Some(wanted));
            let others: Vec<u16> = others.collect();
            let kind = random.pick(&others).unwrap_or(0);
            change(records, random, kind)
        }));
    }
    all
}

/// Numbers outside their range.
fn values() -> Vec<Category> {
    let flat_count = |records: &[Record], number: usize| {
        let of = usize::from(records[number][A]);
        records[of][A]
    };
    let large = |_: &[Record], _: usize, random: &mut Random| {
        Some(if random.one_in(2) { 256 } else { random.range(256, 65_535) as u16 })
    };
    vec![
        Category::words(WRONG_RECORD, "flat type: count 0", change(FLAT, A, |_, _, _| Some(0))),
        Category::words(WRONG_RECORD, "flat type: count over 255", change(FLAT, A, large)),
        Category::words(WRONG_RECORD, "leaf: over 255", change(LEAF, A, large)),
        Category::words(WRONG_RECORD, "constructor: 0", change(CONSTRUCTOR, B, |_, _, _| Some(0))),
        Category::words(
            WRONG_RECORD,
            "constructor: count + 1",
            change(CONSTRUCTOR, B, move |records, number, _| Some(flat_count(records, number) + 1)),
        ),
        Category::words(
            WRONG_RECORD,
            "constructor: far over the count",
            change(CONSTRUCTOR, B, move |records, number, random| {
                let low = usize::from(flat_count(records, number)) + 1;
                Some(random.range(low, 65_535) as u16)
            }),
        ),
        Category::words(
            WRONG_RECORD,
            "constructor: of a pair type",
            change(CONSTRUCTOR, A, |records, number, random| {
                let found = some_record(records, random, |i, r| i < number && r[KIND] == PAIR_TYPE);
                found.map(|i| i as u16)
            }),
        ),
    ]
}

/// Each way to break what one word of a kind asks for.
fn of_word(kind: u16, word: usize, asked: Word) -> Vec<Category> {
    let name = |what: &str| format!("kind {kind}: {} {what}", WORD_NAMES[word]);
    match asked {
        Word::Zero => vec![Category::words(
            WRONG_RECORD,
            name("not mentioned, not 0"),
            change(kind, word, |_, _, random| Some(nonzero(random))),
        )],
        Word::Type | Word::FlatType => named_wrongly(kind, word, Sort::Type, false, &name),
        Word::Part(sort) => named_wrongly(kind, word, sort, true, &name),
        Word::Next(sort) => named_wrongly(kind, word, sort, true, &name)
            .into_iter()
            .filter(|category| !category.name.ends_with("is 0"))
            .collect(),
        _ => Vec::new(),
    }
}

/// Naming 0, past the count, on the wrong side of the record, or a record of
/// another sort on the right side.
fn named_wrongly(
    kind: u16,
    word: usize,
    wanted: Sort,
    higher: bool,
    name: &dyn Fn(&str) -> String,
) -> Vec<Category> {
    let category = |what: &str, value: Box<Value>| {
        Category::words(WRONG_RECORD, name(what), change(kind, word, value))
    };
    let on_side = move |number: usize, i: usize| if higher { i > number } else { i < number };
    vec![
        category("is 0", Box::new(|_, _, _| Some(0))),
        category(
            "past the count",
            Box::new(|records, _, random| Some(past_count(records, random))),
        ),
        category("is itself", Box::new(|_, number, _| Some(number as u16))),
        category(
            if higher { "not higher" } else { "not lower" },
            Box::new(move |records, number, random| {
                let found =
                    |i: usize, r: &Record| sort(r[KIND]) == Some(wanted) && !on_side(number, i);
                some_record(records, random, found).map(|i| i as u16)
            }),
        ),
        category(
            "of another sort",
            Box::new(move |records, number, random| {
                let found =
                    |i: usize, r: &Record| sort(r[KIND]) != Some(wanted) && on_side(number, i);
                some_record(records, random, found).map(|i| i as u16)
            }),
        ),
    ]
}
