//! Records that are not named exactly once: code 4.

use super::category::Category;
use super::picks::some_record;
use crate::answers::WRONG_NAMING;
use crate::draft::{Draft, Term};
use crate::generate::patterns;
use crate::random::Random;
use crate::records::{
    sort, words, Record, Sort, Word, A, B, C, FEEDBACK, FLAT, IF, KIND, LEAF, LET, NEXT, PAIR,
    PAIR_PATTERN, PAIR_TYPE, WHOLE, WORD_NAMES,
};
use crate::structure::choices_on;
use crate::survey::{alternatives, expressions, some_kind};

pub fn categories() -> Vec<Category> {
    let mut all = orphans();
    all.extend(naming_orphans());
    all.extend(shared());
    all.extend(renamed());
    for (name, kinds) in [
        ("type", vec![FLAT, PAIR_TYPE]),
        ("alternative", (WHOLE..=PAIR_PATTERN).collect()),
        ("leaf", vec![LEAF]),
    ] {
        all.push(Category::words(
            WRONG_NAMING,
            format!("chain cut at a {name}"),
            move |records, random| {
                let cut = |_: usize, r: &Record| kinds.contains(&r[KIND]) && r[NEXT] != 0;
                let Some(number) = some_record(records, random, cut) else { return false };
                records[number][NEXT] = 0;
                true
            },
        ));
    }
    all
}

/// Lays a node out though nothing names it.
fn put(draft: &mut Draft, node: usize) -> bool {
    draft.orphans.push(node);
    true
}

/// Records that nothing names, alone or with parts of their own.
fn orphans() -> Vec<Category> {
    let any = |draft: &Draft, random: &mut Random| random.pick(&draft.chain).unwrap_or(0);
    vec![
        Category::draft(WRONG_NAMING, "unnamed type", move |draft, random| {
            let (first, second) = (any(draft, random), any(draft, random));
            let flat = random.one_in(2) || draft.find_pair(first, second).is_some();
            let node =
                if flat { draft.loose_flat(2) } else { draft.loose_pair_type(first, second) };
            put(draft, node)
        }),
        Category::draft(WRONG_NAMING, "unnamed expression", move |draft, random| {
            let of = any(draft, random);
            let part = draft.random_constant(of, random);
            let name = draft.name(0, of);
            let node = if random.one_in(2) { part } else { draft.bind(part, name) };
            put(draft, node)
        }),
        Category::draft(WRONG_NAMING, "unnamed pattern", move |draft, random| {
            let of = any(draft, random);
            let node = patterns::chain(draft, of, random);
            put(draft, node)
        }),
        Category::draft(WRONG_NAMING, "unnamed leaf", move |draft, random| {
            let values = vec![1; random.range(1, 3)];
            let node = draft.leaves(&values);
            put(draft, node)
        }),
    ]
}

/// Records that nothing names, though they name records named already.
fn naming_orphans() -> Vec<Category> {
    vec![
        Category::draft(WRONG_NAMING, "unnamed type before the first", |draft, random| {
            let node = draft.loose_flat(random.range(1, 9) as u16);
            draft.nodes[node].words[NEXT] = Term::Part(draft.chain[0]);
            put(draft, node)
        }),
        Category::draft(
            WRONG_NAMING,
            "unnamed expression that names a named one",
            |draft, random| {
                let spots = expressions(draft);
                let Some(spot) = random.pick(&spots) else { return false };
                let node = draft.first(spot.node, 0);
                put(draft, node)
            },
        ),
    ]
}

/// Records named twice by two words of one record.
fn shared() -> Vec<Category> {
    let of_kind = |kind: u16, from: usize, to: usize| {
        let (one, two) = (WORD_NAMES[from], WORD_NAMES[to]);
        let name = format!("kind {kind}: {one} and {two} name one record");
        Category::draft(WRONG_NAMING, name, move |draft, random| {
            let node = if kind == PAIR_PATTERN {
                let found = alternatives(draft).into_iter().map(|s| s.node);
                let found: Vec<usize> = found.filter(|&n| draft.kind(n) == kind).collect();
                random.pick(&found)
            } else {
                some_kind(draft, random, kind).map(|spot| spot.node)
            };
            let Some(node) = node else { return false };
            let (one, two) = if random.one_in(2) { (from, to) } else { (to, from) };
            draft.nodes[node].words[one] = draft.nodes[node].words[two];
            true
        })
    };
    vec![
        of_kind(PAIR, A, B),
        of_kind(LET, A, B),
        of_kind(FEEDBACK, B, C),
        of_kind(IF, A, B),
        of_kind(IF, A, C),
        of_kind(IF, B, C),
        of_kind(PAIR_PATTERN, A, B),
    ]
}

/// Words that name another record of the right sort.
fn renamed() -> Vec<Category> {
    let mut all = vec![
        Category::words(WRONG_NAMING, "header: next is a later type", |records, random| {
            header_names(records, random, NEXT, Sort::Type)
        }),
        Category::words(WRONG_NAMING, "header: b is another expression", |records, random| {
            header_names(records, random, B, Sort::Expression)
        }),
    ];
    for wanted in [Sort::Expression, Sort::Pattern, Sort::Leaf] {
        let name = format!("part is another's {wanted:?}").to_lowercase();
        all.push(Category::words(WRONG_NAMING, name, move |records, random| {
            rename(records, random, Word::Part(wanted), wanted)
        }));
    }
    for wanted in [Sort::Type, Sort::Pattern, Sort::Leaf] {
        let name = format!("next is another {wanted:?}").to_lowercase();
        all.push(Category::words(WRONG_NAMING, name, move |records, random| {
            rename(records, random, Word::Next(wanted), wanted)
        }));
    }
    all
}

fn header_names(records: &mut [Record], random: &mut Random, word: usize, wanted: Sort) -> bool {
    let now = usize::from(records[0][word]);
    let other = |i: usize, r: &Record| i != now && sort(r[KIND]) == Some(wanted);
    let Some(number) = some_record(records, random, other) else { return false };
    records[0][word] = number as u16;
    true
}

/// Makes a random word of a role, that shares what it names with no other,
/// name another higher record of the sort.
fn rename(records: &mut [Record], random: &mut Random, role: Word, wanted: Sort) -> bool {
    let mut places = Vec::new();
    for (number, record) in records.iter().enumerate().skip(1) {
        let asked = words(record[KIND]).unwrap_or([Word::Zero; 5]);
        places.extend((0..5).filter(|&k| asked[k] == role).map(|k| (number, NEXT + k)));
    }
    let Some((number, word)) = random.pick(&places) else { return false };
    let now = usize::from(records[number][word]);
    if choices_on(records)[now] > 1 {
        return false;
    }
    let other = |i: usize, r: &Record| i > number && i != now && sort(r[KIND]) == Some(wanted);
    let Some(named) = some_record(records, random, other) else { return false };
    records[number][word] = named as u16;
    true
}
