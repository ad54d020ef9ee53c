//! Sheets changed at random, or random altogether.

use crate::random::Random;
use crate::records::{
    sort, words, Record, Sort, Word, A, B, C, HEADER, KIND, KINDS, LEAF, MAX_RECORDS, NAME, NEXT,
    RECORD_BYTES,
};

/// A value for a word: near its present one, a record's number, or any.
fn value(now: u16, count: usize, random: &mut Random) -> u16 {
    match random.below(8) {
        0 => 0,
        1 => now.wrapping_add(1),
        2 => now.wrapping_sub(1),
        3 => now ^ (1 << random.below(16)),
        4 => random.word(),
        _ => random.below(count + 1) as u16,
    }
}

/// Changes one to four words anywhere.
pub fn change_words(records: &mut [Record], random: &mut Random) {
    let count = records.len();
    for _ in 0..random.range(1, 4) {
        let number = random.below(count);
        let word = random.below(6);
        records[number][word] = match word {
            KIND if random.one_in(2) => random.pick(&KINDS).unwrap_or(0),
            _ => value(records[number][word], count, random),
        };
    }
}

/// Changes words of the header only.
pub fn change_header(records: &mut [Record], random: &mut Random) {
    let count = records.len();
    for _ in 0..random.range(1, 6) {
        let word = random.below(6);
        records[0][word] = value(records[0][word], count, random);
    }
}

/// Swaps, drops or repeats whole records, the count in step or not.
pub fn change_records(records: &mut Vec<Record>, random: &mut Random) {
    let number = random.range(1, records.len() - 1);
    let other = random.range(1, records.len() - 1);
    match random.below(3) {
        0 => records.swap(number, other),
        1 => {
            records.remove(number);
        }
        _ => {
            let record = records[other];
            records.insert(number, record);
        }
    }
    if !random.one_in(4) {
        records[0][C] = records.len() as u16;
    }
}

/// Changes type words to other lower types, names, leaves and the input type:
/// words that only the type rules judge.
pub fn change_types(records: &mut [Record], random: &mut Random) {
    let places = type_places(records);
    for _ in 0..random.range(1, 3) {
        let Some((number, word)) = random.pick(&places) else { return };
        let limit = if number == 0 { records.len() } else { number };
        let types: Vec<u16> = (1..limit)
            .filter(|&i| sort(records[i][KIND]) == Some(Sort::Type))
            .map(|i| i as u16)
            .collect();
        records[number][word] = match records[number][KIND] {
            NAME => random.below(6) as u16,
            LEAF => random.below(7) as u16,
            _ => random.pick(&types).unwrap_or(0),
        };
    }
}

fn type_places(records: &[Record]) -> Vec<(usize, usize)> {
    let mut places = vec![(0, A)];
    for (number, record) in records.iter().enumerate().skip(1) {
        let asked = words(record[KIND]).unwrap_or([Word::Zero; 5]);
        let changes = |word: &Word| matches!(word, Word::Type | Word::Number | Word::LeafValue);
        places.extend((0..5).filter(|&k| changes(&asked[k])).map(|k| (number, NEXT + k)));
    }
    places
}

/// Random bytes of a length, with a whole header in front at times.
pub fn random_bytes(length: usize, random: &mut Random) -> Vec<u8> {
    let mut bytes: Vec<u8> = (0..length).map(|_| random.draw() as u8).collect();
    if length >= RECORD_BYTES && random.one_in(2) {
        let count = (length / RECORD_BYTES).min(MAX_RECORDS + 1);
        let mut header = [0; 6];
        header[KIND] = HEADER;
        header[C] = count as u16;
        for word in [NEXT, A, B] {
            header[word] = random.below(count + 1) as u16;
        }
        let words = header.iter().flat_map(|w| w.to_le_bytes());
        bytes.iter_mut().zip(words).for_each(|(byte, new)| *byte = new);
    }
    bytes
}

/// Records of known kinds whose words are mostly of the right sort.
pub fn random_records(random: &mut Random) -> Vec<Record> {
    let count = random.range(3, 14);
    let mut records: Vec<Record> = vec![[0; 6]; count];
    for record in records.iter_mut().skip(1) {
        record[KIND] = random.pick(&KINDS).unwrap_or(0);
    }
    records[1][KIND] = 16;
    let kinds: Vec<u16> = records.iter().map(|r| r[KIND]).collect();
    for (number, record) in records.iter_mut().enumerate().skip(1) {
        let asked = words(record[KIND]).unwrap_or([Word::Zero; 5]);
        for (k, word) in asked.into_iter().enumerate() {
            record[NEXT + k] = plausible(word, number, &kinds, random);
        }
    }
    let input = numbers(&kinds, 1..count, Sort::Type);
    let root = numbers(&kinds, 1..count, Sort::Expression);
    let pick = |list: &[u16], random: &mut Random| random.pick(list).unwrap_or(0);
    records[0] = [HEADER, 1, pick(&input, random), pick(&root[..root.len().min(1)], random), 0, 0];
    records[0][C] = count as u16;
    records
}

fn numbers(kinds: &[u16], range: std::ops::Range<usize>, wanted: Sort) -> Vec<u16> {
    range.filter(|&i| sort(kinds[i]) == Some(wanted)).map(|i| i as u16).collect()
}

/// A value that a word may well ask for.
fn plausible(word: Word, number: usize, kinds: &[u16], random: &mut Random) -> u16 {
    let lower = |wanted: Sort| numbers(kinds, 1..number, wanted);
    let higher = |wanted: Sort| numbers(kinds, number + 1..kinds.len(), wanted);
    match word {
        Word::Zero => 0,
        Word::Number | Word::Label => random.below(2) as u16,
        Word::Count | Word::Constructor | Word::LeafValue => random.range(1, 2) as u16,
        Word::Type | Word::FlatType => random.pick(&lower(Sort::Type)).unwrap_or(0),
        Word::Part(wanted) => random.pick(&higher(wanted)).unwrap_or(0),
        Word::Next(Sort::Type) => higher(Sort::Type).first().copied().unwrap_or(0),
        Word::Next(wanted) => {
            if random.one_in(2) {
                0
            } else {
                random.pick(&higher(wanted)).unwrap_or(0)
            }
        }
    }
}
