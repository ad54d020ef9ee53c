//! Codes 1 to 6: what is wrong with the records of a sheet. Of a text only too
//! many constructors, pair types and limits can be refused so.

use second::answers::{
    Answer, TOO_DEEP, WRONG_HEADER, WRONG_LENGTH, WRONG_NAMING, WRONG_RECORD, WRONG_TYPE,
};
use second::records::{
    expression_parts, root, sort, words, Sort, Word, A, B, C, D, FEEDBACK, FLAT, HEADER, KIND,
    MAX_RECORDS, NEXT, PAIR_TYPE, RECORD_BYTES, WORD_NAMES,
};

use crate::circuit::Circuit;
use crate::message::{Message, Place};
use crate::wording::grouped;

const MOST_LEAVES: u64 = 64;
const MOST_DEPTH: usize = 64;
const MOST_CONSTRUCTORS: u16 = 255;

/// What is wrong with a sheet that the check refuses by a code below 7.
pub fn explain(circuit: &Circuit, answer: Answer) -> Vec<Message> {
    let place = answer.place as usize;
    if answer.code == WRONG_LENGTH {
        return vec![Message::error(Place::File, length(circuit.sheet.len()))];
    }
    let (sentence, note) = match answer.code {
        WRONG_HEADER => (header(circuit), None),
        WRONG_RECORD => (record(circuit, place), None),
        WRONG_NAMING => (named(circuit, place), None),
        WRONG_TYPE => pair_type(circuit, place),
        TOO_DEEP => (depth(circuit, place), None),
        code => (format!("refused by code {code}"), None),
    };
    let error = Message::error(circuit.place(place), sentence);
    let note = note.and_then(|first| {
        circuit.piece(first).map(|piece| Message::note(piece, "it is declared here"))
    });
    [Some(error), note].into_iter().flatten().collect()
}

fn length(bytes: usize) -> String {
    let most = RECORD_BYTES * MAX_RECORDS;
    let has = format!("the sheet has {} bytes", grouped(bytes));
    if bytes < RECORD_BYTES {
        format!("{has}, and one record has {RECORD_BYTES}")
    } else if bytes > most {
        format!("{has}: at most {}", grouped(most))
    } else {
        format!("{has}, which are no whole records of {RECORD_BYTES}")
    }
}

fn header(circuit: &Circuit) -> String {
    let header = circuit.records[0];
    let (count, given) = (circuit.records.len(), usize::from(header[C]));
    let asks = |word: usize, wanted: Sort, what: &str| {
        let named = usize::from(header[word]);
        let found = circuit.records.get(named).and_then(|record| sort(record[KIND]));
        let name = WORD_NAMES[word];
        (named == 0 || found != Some(wanted))
            .then(|| format!("the header's {name} is {named}, which is no {what}"))
    };
    if header[KIND] != HEADER {
        format!("the header has kind {}, not {HEADER}", header[KIND])
    } else if given != count {
        format!("the header counts {given} records, and there are {count}")
    } else if header[D] != 0 {
        format!("the header's d is {}, not 0", header[D])
    } else {
        asks(NEXT, Sort::Type, "type")
            .or_else(|| asks(A, Sort::Type, "type"))
            .or_else(|| asks(B, Sort::Expression, "expression"))
            .unwrap_or_else(|| "the header is wrong".to_string())
    }
}

/// The first word of a record against the table of kinds.
fn record(circuit: &Circuit, number: usize) -> String {
    let record = circuit.records[number];
    let kind = record[KIND];
    let Some(asked) = words(kind) else {
        return if kind == HEADER {
            "a header stands at record 0 only".to_string()
        } else {
            format!("there is no kind {kind}")
        };
    };
    if let (FLAT, Some(name)) = (kind, circuit.types().name(number)) {
        let (count, most) = (record[A], MOST_CONSTRUCTORS);
        return format!("`{name}` has {count} constructors: a type has at most {most}");
    }
    let fault = |at: usize| {
        let value = record[NEXT + at];
        let fault = word(circuit, number, asked[at], value)?;
        Some(format!("word {} is {value}: {fault}", WORD_NAMES[NEXT + at]))
    };
    (0..asked.len()).find_map(fault).unwrap_or_else(|| "a word is wrong".to_string())
}

/// What is wrong with a word, by what it asks for.
fn word(circuit: &Circuit, number: usize, asked: Word, value: u16) -> Option<String> {
    let is = |good: bool, fault: &str| (!good).then(|| fault.to_string());
    let names = Named { circuit, number, named: usize::from(value) };
    match asked {
        Word::Zero => is(value == 0, "this kind has 0 there"),
        Word::Number | Word::Label => None,
        Word::Count => is((1..=255).contains(&value), "a type has 1 to 255 constructors"),
        Word::LeafValue => is(value <= 255, "a leaf is 0 to 255"),
        Word::Type => names.before(false),
        Word::FlatType => names.before(true),
        Word::Constructor => {
            let of = usize::from(circuit.records[number][A]);
            let count = circuit.records.get(of).map_or(0, |record| record[A]);
            is((1..=count).contains(&value), &format!("its type has the constructors 1 to {count}"))
        }
        Word::Part(sort) => names.after(sort),
        Word::Next(sort) => (value != 0).then(|| names.after(sort)).flatten(),
    }
}

/// A record that a word of another names.
struct Named<'a> {
    circuit: &'a Circuit,
    number: usize,
    named: usize,
}

impl Named<'_> {
    fn missing(&self) -> Option<String> {
        let Named { circuit, named, .. } = self;
        (*named >= circuit.records.len()).then(|| format!("there is no record {named}"))
    }

    fn is_no(&self, good: bool, what: &str) -> Option<String> {
        (!good).then(|| format!("record {} is no {what}", self.named))
    }

    /// What is wrong with a type that stands before the word's record.
    fn before(&self, flat: bool) -> Option<String> {
        if let Some(fault) = self.missing() {
            return Some(fault);
        }
        if self.named >= self.number {
            return Some("a type before this record is asked for".to_string());
        }
        let kind = self.circuit.records[self.named][KIND];
        match flat {
            true => self.is_no(kind == FLAT, "flat type"),
            false => self.is_no(sort(kind) == Some(Sort::Type), "type"),
        }
    }

    /// What is wrong with a record of a sort that stands after the word's.
    fn after(&self, asked: Sort) -> Option<String> {
        if let Some(fault) = self.missing() {
            return Some(fault);
        }
        if self.named <= self.number {
            return Some("a record after this one is asked for".to_string());
        }
        let what = match asked {
            Sort::Type => "type",
            Sort::Expression => "expression",
            Sort::Pattern => "pattern",
            Sort::Leaf => "leaf",
        };
        self.is_no(sort(self.circuit.records[self.named][KIND]) == Some(asked), what)
    }
}

/// How often a record is named.
fn named(circuit: &Circuit, number: usize) -> String {
    let mut by = Vec::new();
    for (at, record) in circuit.records.iter().enumerate() {
        let asked = match at {
            0 => {
                use Word::{Next, Part, Zero};
                [Next(Sort::Type), Zero, Part(Sort::Expression), Zero, Zero]
            }
            _ => words(record[KIND]).unwrap_or([Word::Zero; 5]),
        };
        for (k, asked) in asked.iter().enumerate() {
            let counts = matches!(asked, Word::Part(_) | Word::Next(_));
            if counts && usize::from(record[NEXT + k]) == number {
                by.push(format!("word {} of record {at}", WORD_NAMES[NEXT + k]));
            }
        }
    }
    match by.as_slice() {
        [] => "no word names this record".to_string(),
        [first, second, rest @ ..] => {
            let more = if rest.is_empty() { "" } else { ", and by more" };
            format!("it is named twice: by {first} and by {second}{more}")
        }
        [one] => format!("it is named by {one} only"),
    }
}

/// A pair type with the parts of another one, or with too many leaves.
fn pair_type(circuit: &Circuit, number: usize) -> (String, Option<usize>) {
    let types = circuit.types();
    let record = circuit.records[number];
    let first = (1..number).find(|&other| {
        let other = circuit.records[other];
        other[KIND] == PAIR_TYPE && other[A] == record[A] && other[B] == record[B]
    });
    let label = types.label(number);
    match first {
        Some(first) => {
            let parts = types.pair_label(usize::from(record[A]), usize::from(record[B]));
            let rule = "two parts have one pair type";
            let first_label = types.label(first);
            (format!("{label} has the parts of {first_label}, {parts}: {rule}"), Some(first))
        }
        None => {
            let leaves = types.widths()[number];
            let shown = grouped(usize::try_from(leaves).unwrap_or(usize::MAX));
            (format!("{label} has {shown} leaves: a type has at most {MOST_LEAVES}"), None)
        }
    }
}

/// How deep an expression lies, or in how many feedbacks.
fn depth(circuit: &Circuit, number: usize) -> String {
    let mut open = vec![(root(&circuit.records), 1, 0)];
    while let Some((at, depth, feedbacks)) = open.pop() {
        if at == number && depth > MOST_DEPTH {
            return format!("this expression lies {depth} deep: at most {MOST_DEPTH} are allowed");
        }
        if at == number {
            let many = ["none", "one", "two", "three", "four"].get(feedbacks).unwrap_or(&"many");
            let parts = format!("in the defining parts of {many} feedbacks");
            return format!("this expression lies {parts}: at most three are allowed");
        }
        let record = circuit.records[at];
        for (word, part) in expression_parts(&record) {
            let inside = usize::from(record[KIND] == FEEDBACK && word == B);
            open.push((part, depth + 1, feedbacks + inside));
        }
    }
    "this expression lies too deep".to_string()
}
