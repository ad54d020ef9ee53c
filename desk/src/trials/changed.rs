//! One token changed: the records that change are those that come from it.

use std::collections::BTreeMap;

use desk::archive;
use desk::layout::{layout, Layout};
use second::random::Random;
use second::records::{read, DELAY, KIND};
use second::text::generate::sentence::{Role, Sentence};
use second::text::tokens::INPUT;

use super::places::report;

/// A change: the number of the word, its new letters, and how many words before
/// it the token stands that the changed records come from.
struct Change {
    word: usize,
    letters: String,
    back: usize,
}

/// Changes so many tokens, each of a text of its own.
pub fn run(count: u64) -> bool {
    let mut random = Random::new(53);
    let mut tally: BTreeMap<String, u64> = BTreeMap::new();
    let mut done = 0;
    while done < count {
        let sentence = super::texts::sentence(&mut random);
        let (text, places) = sentence.spell(&mut random);
        let (Ok(sheet), Some(laid)) = (archive::translate(&text), layout(&text)) else { continue };
        let Some(change) = pick(&sentence, &laid, &mut random) else { continue };
        let word = &sentence.words[change.word];
        let at = places[change.word];
        let end = at + word.letters.len();
        let changed = [&text[..at], change.letters.as_bytes(), &text[end..]].concat();
        let Ok(after) = archive::translate(&changed) else { continue };
        if after.len() != sheet.len() || after == sheet {
            continue;
        }
        let wanted = places[change.word - change.back];
        let of_pair = matches!(word.role, Role::FirstOfPairType | Role::SecondOfPairType);
        let changes: Vec<usize> = differing(&sheet, &after, of_pair);
        for record in &changes {
            let place = laid.piece(*record).map(|piece| piece.place);
            if place != Some(wanted) {
                println!("byte {at} to {}: record {record}, {place:?}, {wanted}", change.letters);
                return report("another record changed", &text);
            }
        }
        if !changes.is_empty() {
            *tally.entry(format!("{:?}", word.role)).or_default() += 1;
            done += 1;
        }
    }
    println!("compared {done} changed tokens: {tally:?}");
    let roles = ["Expression", "UndefinedType", "InputType", "InitType", "Constant", "Alternative"];
    let pairs = ["FirstOfPairType", "SecondOfPairType", "NoName", "ConstantType"];
    roles.iter().chain(&pairs).all(|role| tally.get(*role).is_some_and(|n| *n >= 50))
}

/// The records in which two sheets differ. Another pair type can be the type of
/// a DELAY's constant, so where one was changed DELAYs do not count.
fn differing(old: &[u8], new: &[u8], of_pair: bool) -> Vec<usize> {
    let (old, new) = (read(old), read(new));
    let differs = |at: &usize| old[*at] != new[*at] && !(of_pair && old[*at][KIND] == DELAY);
    (0..old.len()).filter(differs).collect()
}

/// A change of a random word that leaves the layout as it is.
fn pick(sentence: &Sentence, laid: &Layout, random: &mut Random) -> Option<Change> {
    let word = a_word(sentence, random);
    let letters = &sentence.words[word].letters;
    let constructor = laid.names.constructors.get(letters);
    let change = |letters: Option<String>, back: usize| {
        letters.map(|letters| Change { word, letters, back })
    };
    match sentence.words[word].role {
        Role::NoName if letters == "1" => change(Some("2".to_string()), 1),
        Role::NoName if letters == "2" => change(Some("1".to_string()), 1),
        Role::Expression if constructor.is_some() => change(any_constructor(laid, random), 0),
        Role::Expression if letters != INPUT => change(Some(INPUT.to_string()), 0),
        Role::Constant => {
            let of = constructor?.of;
            let same = |name: &String| laid.names.constructors[name].of == of;
            change(any(laid.names.constructors.keys().filter(|name| same(name)), random), 0)
        }
        Role::Alternative if random.one_in(2) => change(any_constructor(laid, random), 0),
        Role::Alternative => change(any(laid.names.types.keys(), random), 0),
        Role::UndefinedType | Role::InputType => change(any(laid.names.types.keys(), random), 1),
        // The type of a DELAY whose constant is undefined is that of its record.
        Role::ConstantType if word >= 4 && sentence.words[word - 3].letters == "DELAY" => {
            change(any(laid.names.types.keys(), random), 4)
        }
        Role::InitType => change(any(laid.names.types.keys(), random), 4),
        Role::FirstOfPairType => change(any(laid.names.types.keys(), random), 3),
        Role::SecondOfPairType => change(any(laid.names.types.keys(), random), 5),
        _ => None,
    }
}

/// Any word; at times the type of an undefined constant, which is rare.
fn a_word(sentence: &Sentence, random: &mut Random) -> usize {
    let is_rare = |at: &usize| sentence.words[*at].role == Role::ConstantType;
    let rare: Vec<usize> = (0..sentence.words.len()).filter(is_rare).collect();
    let any = random.below(sentence.words.len());
    random.pick(&rare).filter(|_| random.one_in(4)).unwrap_or(any)
}

fn any_constructor(laid: &Layout, random: &mut Random) -> Option<String> {
    any(laid.names.constructors.keys(), random)
}

/// One of some names, the same in every run of the program.
fn any<'a>(names: impl Iterator<Item = &'a String>, random: &mut Random) -> Option<String> {
    let mut names: Vec<&String> = names.collect();
    names.sort();
    random.pick(&names).cloned()
}
