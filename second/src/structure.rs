//! The rules about records that need no types: codes 1 to 6.

use std::collections::HashSet;

use crate::answers::{
    Answer, TOO_DEEP, WRONG_HEADER, WRONG_LENGTH, WRONG_NAMING, WRONG_RECORD, WRONG_TYPE,
};
use crate::records::{
    expression_parts, read, root, sort, words, Record, Sort, Word, A, B, C, D, FEEDBACK, FLAT,
    HEADER, IF, KIND, NEXT, PAIR_TYPE, RECORD_BYTES,
};

/// A sheet that keeps the rules of codes 1 to 6.
pub struct Structure {
    pub records: Vec<Record>,
    /// The leaves of each type; 0 for other records.
    pub leaves: Vec<u64>,
}

/// The rules that a comparison can replace to make a mistake.
#[derive(Clone, Copy)]
pub struct Rules {
    /// The limits of docs/SHEETS.md, "Limits".
    pub leaves: u64,
    pub depth: usize,
    pub length: usize,
    pub nesting: usize,
    /// The record that is told of those that break a rule.
    pub told: fn(&mut dyn DoubleEndedIterator<Item = usize>) -> Option<usize>,
    /// Whether several words like this one, of a kind of record, may name the
    /// same record.
    pub shares: fn(u16, usize, Word) -> bool,
}

pub const RULES: Rules = Rules {
    leaves: 64,
    depth: 64,
    length: 49_152,
    nesting: 3,
    told: |breaking| breaking.next(),
    shares: pattern_of_choice,
};

/// Of words that count as naming, only the d of IFs share what they name.
pub fn pattern_of_choice(kind: u16, index: usize, _: Word) -> bool {
    kind == IF && index == D
}

/// The records of a sheet, or the first code of 1 to 6 that applies. Each step
/// relies on the steps before it.
pub fn judge(sheet: &[u8], rules: &Rules) -> Result<Structure, Answer> {
    let length_holds = (RECORD_BYTES..=rules.length).contains(&sheet.len())
        && sheet.len().is_multiple_of(RECORD_BYTES);
    if !length_holds {
        return Err(Answer { code: WRONG_LENGTH, place: 0 });
    }
    let records = read(sheet);
    if !header_holds(&records) {
        return Err(Answer { code: WRONG_HEADER, place: 0 });
    }
    let lowest = |code: u8, breaks: &dyn Fn(usize) -> bool| {
        let found = (rules.told)(&mut (1..records.len()).filter(|&i| breaks(i)));
        found.map_or(Ok(()), |i| Err(Answer { code, place: i as u32 }))
    };
    lowest(WRONG_RECORD, &|i| !record_holds(&records, i))?;
    let namings = namings(&records, rules);
    lowest(WRONG_NAMING, &|i| !namings[i].hold())?;
    let leaves = type_leaves(&records);
    let repeated = repeated_pairs(&records);
    lowest(WRONG_TYPE, &|i| repeated[i] || leaves[i] > rules.leaves)?;
    let depths = depths(&records);
    let nestings = nestings(&records);
    lowest(TOO_DEEP, &|i| depths[i] > rules.depth || nestings[i] > rules.nesting)?;
    Ok(Structure { records, leaves })
}

/// The sort of the record with this number; none at or past the count.
fn sort_of(records: &[Record], number: u16) -> Option<Sort> {
    records.get(usize::from(number)).and_then(|record| sort(record[KIND]))
}

/// Code 2: kind, count and d, and the three records the header names.
fn header_holds(records: &[Record]) -> bool {
    let header = &records[0];
    header[KIND] == HEADER
        && usize::from(header[C]) == records.len()
        && header[D] == 0
        && sort_of(records, header[NEXT]) == Some(Sort::Type)
        && sort_of(records, header[A]) == Some(Sort::Type)
        && sort_of(records, header[B]) == Some(Sort::Expression)
}

/// Code 3: a known kind outside the header, and every word as its kind asks.
fn record_holds(records: &[Record], number: usize) -> bool {
    match words(records[number][KIND]) {
        None => false,
        Some(words) => (0..5).all(|k| word_holds(records, number, NEXT + k, words[k])),
    }
}

/// Whether one word of a record is as asked.
fn word_holds(records: &[Record], number: usize, index: usize, asked: Word) -> bool {
    let value = records[number][index];
    let lower = usize::from(value) < number;
    let higher = usize::from(value) > number;
    match asked {
        Word::Zero => value == 0,
        Word::Number | Word::Label => true,
        Word::Count => (1..=255).contains(&value),
        Word::LeafValue => value <= 255,
        Word::Constructor => value >= 1 && value <= flat_count(records, records[number][A]),
        Word::Type => lower && sort_of(records, value) == Some(Sort::Type),
        Word::FlatType => lower && records[usize::from(value)][KIND] == FLAT,
        Word::Part(sort) => higher && sort_of(records, value) == Some(sort),
        Word::Next(sort) => value == 0 || (higher && sort_of(records, value) == Some(sort)),
    }
}

/// The count of constructors of a flat type; 0 for any other number.
fn flat_count(records: &[Record], number: u16) -> u16 {
    match records.get(usize::from(number)) {
        Some(record) if record[KIND] == FLAT => record[A],
        _ => 0,
    }
}

/// Code 4: how many words name a record.
#[derive(Clone, Copy, Default)]
struct Namings {
    /// Words of which several may name one record: the d of an IF.
    sharing: u32,
    /// All others that count as naming.
    single: u32,
}

impl Namings {
    /// Named by one word that shares or more of them and no other, or by one
    /// other word and nothing else.
    fn hold(self) -> bool {
        matches!((self.sharing, self.single), (1.., 0) | (0, 1))
    }
}

/// Code 4: the namings of each record outside the header.
fn namings(records: &[Record], rules: &Rules) -> Vec<Namings> {
    let mut namings = vec![Namings::default(); records.len()];
    namings[usize::from(records[0][NEXT])].single += 1;
    namings[usize::from(records[0][B])].single += 1;
    for record in &records[1..] {
        let asked = words(record[KIND]).unwrap_or([Word::Zero; 5]);
        for (k, word) in asked.into_iter().enumerate() {
            let named = match word {
                Word::Part(_) | Word::Next(_) => &mut namings[usize::from(record[NEXT + k])],
                _ => continue,
            };
            if (rules.shares)(record[KIND], NEXT + k, word) {
                named.sharing += 1;
            } else {
                named.single += 1;
            }
        }
    }
    namings
}

/// The leaves of each type record, 0 for other records. A pair type's parts
/// are lower, so one pass will do; sums saturate.
fn type_leaves(records: &[Record]) -> Vec<u64> {
    let mut leaves: Vec<u64> = vec![0; records.len()];
    for (number, record) in records.iter().enumerate() {
        leaves[number] = match record[KIND] {
            FLAT => 1,
            PAIR_TYPE => {
                leaves[usize::from(record[A])].saturating_add(leaves[usize::from(record[B])])
            }
            _ => 0,
        };
    }
    leaves
}

/// Code 5: the pair types with the parts of a lower one.
fn repeated_pairs(records: &[Record]) -> Vec<bool> {
    let mut seen = HashSet::new();
    records
        .iter()
        .map(|record| record[KIND] == PAIR_TYPE && !seen.insert((record[A], record[B])))
        .collect()
}

/// Code 6: the depth of each expression, the root at 1; 0 for other records.
/// Parts are higher, so one pass will do.
pub fn depths(records: &[Record]) -> Vec<usize> {
    let mut depth = vec![0; records.len()];
    depth[root(records)] = 1;
    for (number, record) in records.iter().enumerate().skip(1) {
        for (_, part) in expression_parts(record) {
            depth[part] = depth[number] + 1;
        }
    }
    depth
}

/// Code 6: in how many feedbacks' defining parts each expression lies.
pub fn nestings(records: &[Record]) -> Vec<usize> {
    let mut nesting = vec![0; records.len()];
    for (number, record) in records.iter().enumerate().skip(1) {
        for (word, part) in expression_parts(record) {
            let defining = record[KIND] == FEEDBACK && word == B;
            nesting[part] = nesting[number] + usize::from(defining);
        }
    }
    nesting
}

/// How many IFs name each record by their word d, if words name records.
pub fn choices_on(records: &[Record]) -> Vec<usize> {
    let mut choices = vec![0; records.len()];
    for record in records.iter().filter(|record| record[KIND] == IF) {
        if let Some(count) = choices.get_mut(usize::from(record[D])) {
            *count += 1;
        }
    }
    choices
}
