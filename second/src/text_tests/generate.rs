//! The generators of texts keep the rules, or break the one they aim at.

use crate::accepted::Circuit;
use crate::calls::texts::mistakes::{self, TextMistake, MISTAKES};
use crate::generate::circuits::circuit;
use crate::generate::small::small;
use crate::random::Random;
use crate::records::{bytes, MAX_RECORDS};
use crate::rule::IN_FORCE;
use crate::simulator::{run, Call};
use crate::stimulus;
use crate::text::generate::faults::categories;
use crate::text::generate::sentence::Sentence;
use crate::text::generate::{circuits, damage, free, sizes};
use crate::text::long;
use crate::text::reading::{positions_in, tokens, Way};
use crate::text::text_meaning::outputs;
use crate::text::translator::{records, syntax, translate};
use crate::verdict::check;

/// A text that keeps the rules of texts.
fn good(random: &mut Random) -> Sentence {
    let room = random.range(1, 40);
    match random.below(3) {
        0 => circuits::sentence(&small(random), random),
        1 => circuits::sentence(&circuit(random), random),
        _ => free::sentence(room, false, random),
    }
}

#[test]
fn good_texts_are_translated() {
    let mut random = Random::new(21);
    for _ in 0..600 {
        let (text, _) = good(&mut random).spell(&mut random);
        let answer = translate(&text, 12 * MAX_RECORDS).answer;
        assert!([0, 15].contains(&answer.code), "{}", String::from_utf8_lossy(&text));
    }
}

/// For accepted sheets a run gives the meaning's outputs, cycle for cycle.
#[test]
fn reading_17_runs_give_the_meaning() {
    let mut random = Random::new(22);
    let mut accepted = 0;
    for k in 0..500 {
        let draft = if k % 5 == 0 { circuit(&mut random) } else { small(&mut random) };
        let (text, _) = circuits::sentence(&draft, &mut random).spell(&mut random);
        let Ok(syntax) = syntax(&text) else { panic!("13") };
        let Ok(records) = records(&syntax) else { panic!("14") };
        let sheet = bytes(&records);
        let Ok(circuit) = Circuit::read(&sheet) else { continue };
        accepted += 1;
        let counts = circuit.counts(circuit.input()).repeat(5);
        let leaf = |count: &u8| random.below(usize::from(*count) + 1) as u8;
        let stimulus: Vec<u8> = counts.iter().map(leaf).collect();
        let output_length = 5 * circuit.width(circuit.root());
        let call =
            Call { sheet: &sheet, stimulus: &stimulus, output_length, next_length: sheet.len() };
        let inputs = stimulus::cycles(&circuit, &stimulus);
        let meant = outputs(&syntax, inputs, IN_FORCE).concat();
        assert_eq!(run(&call).outputs, Some(meant), "{}", String::from_utf8_lossy(&text));
    }
    assert!(accepted > 450, "{accepted}");
}

#[test]
fn bad_names_are_found() {
    let categories = categories();
    assert_eq!(categories.len(), 49);
    let mut hits = vec![(0, 0); categories.len()];
    let mut random = Random::new(23);
    for _ in 0..150 {
        let whole = good(&mut random);
        for (category, hits) in categories.iter().zip(&mut hits) {
            let mut sentence = whole.clone();
            let Some(at) = category.put(&mut sentence, &mut random) else { continue };
            let (text, places) = sentence.spell(&mut random);
            let answer = translate(&text, 0).answer;
            hits.0 += 1;
            hits.1 += usize::from((answer.code, answer.place) == (14, places[at] as u32));
        }
    }
    for (category, (made, hit)) in categories.iter().zip(hits) {
        assert!(hit > 0 && hit * 10 >= made * 8, "{}: {hit} of {made}", category.name);
    }
}

#[test]
fn damaged_texts_have_an_answer() {
    let mut random = Random::new(24);
    let mut codes = [0; 16];
    for _ in 0..2000 {
        let (mut text, _) = good(&mut random).spell(&mut random);
        damage::damage_anywhere(&mut text, &mut random);
        let length = random.below(70_000);
        codes[usize::from(translate(&text, length).answer.code)] += 1;
        let found = positions_in(&text);
        let legal = tokens(&text).map_or_else(|illegal| illegal.place + 1, |_| text.len());
        assert_eq!(found.len(), legal.min(text.len()));
    }
    assert!([0, 13, 14, 15].iter().all(|&code| codes[code] > 0), "{codes:?}");
    for _ in 0..1000 {
        let length = random.below(60);
        translate(&damage::random_bytes(length, &mut random), 60_000);
    }
}

#[test]
fn sizes_are_met() {
    let mut random = Random::new(25);
    for count in [7, 100, 4096, 4097] {
        let (text, _) = sizes::of_records(count, &mut random).spell(&mut random);
        let answer = translate(&text, 12 * count).answer;
        assert_eq!((answer.code == 0, answer.place), (count <= 4096, 12 * count as u32));
    }
    for count in [65_535, 65_536, 70_000] {
        let sentence = free::sentence(20, false, &mut random);
        let text = sizes::of_bytes(&sentence, count, &mut random);
        assert_eq!((text.len(), tokens(&text).is_ok()), (count, count == 65_535));
    }
    for _ in 0..50 {
        let sentence = sizes::with_long_name(&good(&mut random), &mut random);
        let (text, _) = sentence.spell(&mut random);
        assert_eq!(tokens(&text).err().map(|illegal| illegal.way), Some(Way::LongName));
        translate(&sizes::deep(&mut random), 49_152);
    }
}

#[test]
fn long_texts_are_translated_but_for_their_records() {
    for (name, text) in long::all() {
        let outcome = translate(&text, 12 * MAX_RECORDS);
        let (code, place) = (outcome.answer.code, outcome.answer.place as usize);
        assert_eq!(text.len(), 65_535);
        assert_eq!(code, if place <= 12 * MAX_RECORDS { 0 } else { 15 }, "{name}");
    }
}

/// Texts on which each mistake shows.
fn texts_for(mistake: TextMistake, random: &mut Random) -> Vec<u8> {
    let sentence = match mistake {
        TextMistake::SeventeenLetters => sizes::with_long_name(&good(random), random),
        TextMistake::LetInOwnPart => {
            let mut sentence = good(random);
            if let Some(own) = categories().iter().find(|c| c.name.contains("LET that it")) {
                own.put(&mut sentence, random);
            }
            sentence
        }
        _ => free::sentence(30, false, random),
    };
    match mistake {
        TextMistake::OneByteMore => return sizes::of_bytes(&sentence, 65_536, random),
        TextMistake::PlaceAtToken => {
            let (mut text, _) = sentence.spell(random);
            damage::damage_anywhere(&mut text, random);
            return text;
        }
        _ => {}
    }
    sentence.spell(random).0
}

#[test]
fn mistakes_are_seen() {
    let mut random = Random::new(26);
    for (name, mistake) in MISTAKES {
        let seen = (0..2000).any(|_| {
            let text = texts_for(mistake, &mut random);
            let length = 12 * random.range(1, 300);
            let (right, wrong) =
                (translate(&text, length), mistakes::translate(&text, length, Some(mistake)));
            right.answer != wrong.answer || right.written != wrong.written
        });
        assert!(seen, "{name}");
        assert_eq!(mistakes::named(name), Some(mistake));
    }
    assert!(mistakes::named("none").is_none());
}

#[test]
fn sheets_are_accepted_and_refused() {
    let mut random = Random::new(27);
    let mut codes = [0; 8];
    for _ in 0..1500 {
        let (text, _) = good(&mut random).spell(&mut random);
        let outcome = translate(&text, 49_152);
        if outcome.answer.code == 0 {
            let sheet = &outcome.written[..outcome.answer.place as usize];
            codes[usize::from(check(sheet).code)] += 1;
        }
    }
    assert_eq!((codes[1], codes[2], codes[4]), (0, 0, 0));
    assert!([0, 3, 5, 6, 7].iter().all(|&code| codes[code] > 0), "{codes:?}");
    assert!(codes[0] > 600, "{codes:?}");
}
