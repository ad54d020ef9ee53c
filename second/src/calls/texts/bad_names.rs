//! Texts with bad names, and with constant pairs that have no type.

use super::case::{Case, Texts};
use super::legal::{good, share};
use super::tally::{self, PER_CATEGORY};
use crate::answers::WRONG_NAME;
use crate::frame::comparison::{self, Ended, Halt, SHARDS, TRIES};
use crate::random::Random;
use crate::text::constants;
use crate::text::generate::faults::Category;
use crate::text::generate::free;
use crate::text::generate::sentence::{Role, Sentence};
use crate::text::naming;
use crate::text::syntax::Constant;
use crate::text::translator::{syntax, translate};

type Comparer<'a> = comparison::Comparer<'a, Texts>;

/// Each category in turn on each text, until all have enough.
pub fn of_categories(to: &mut Comparer, categories: &[Category], random: &mut Random) -> Ended {
    let need = PER_CATEGORY.div_ceil(SHARDS);
    for _ in 0..need * TRIES {
        let whole = good(random);
        let mut complete = true;
        for category in categories {
            if to.tally.got(&tally::of_category(category)) >= need {
                continue;
            }
            complete = false;
            let mut sentence = whole.clone();
            let Some(at) = category.put(&mut sentence, random) else { continue };
            let hit = compare(to, &category.name, &sentence, at, random)?;
            to.tally.aim(&tally::of_category(category), hit);
        }
        if complete {
            break;
        }
    }
    Ok(())
}

/// Two bad names in a text, of any categories: the first is refused.
pub fn two_at_once(to: &mut Comparer, categories: &[Category], random: &mut Random) -> Ended {
    for _ in 0..share(tally::TWO_BAD) * TRIES {
        if to.tally.got(tally::TWO_BAD) >= share(tally::TWO_BAD) {
            break;
        }
        let mut sentence = good(random);
        let mut put = || categories[random.below(categories.len())].put(&mut sentence, random);
        let (Some(one), Some(other)) = (put(), put()) else { continue };
        if one != other {
            let hit = compare(to, tally::TWO_BAD, &sentence, one.min(other), random)?;
            to.tally.add_if(tally::TWO_BAD, hit);
        }
    }
    Ok(())
}

/// Compares; whether the text is refused with 14 at a token.
fn compare(
    to: &mut Comparer,
    source: &str,
    sentence: &Sentence,
    at: usize,
    random: &mut Random,
) -> Result<bool, Halt> {
    let (text, places) = sentence.spell(random);
    let slice_length = random.below(3_000);
    let outcome = to.translations(&Case { source: source.to_string(), text, slice_length })?;
    Ok((outcome.answer.code, outcome.answer.place as usize) == (WRONG_NAME, places[at]))
}

/// Whether both parts of the constant pair at a place have a type.
fn parts_typed(text: &[u8], place: usize) -> Option<bool> {
    let syntax = syntax(text).ok()?;
    let names = naming::resolve(&syntax).ok()?;
    let types = constants::types(constants::TAKEN, &syntax, &names);
    let typed = |constant: &Constant| match constant {
        Constant::Pair(first, second, at) if *at == place => {
            Some(types[*first].is_some() && types[*second].is_some())
        }
        _ => None,
    };
    syntax.constants.iter().find_map(typed)
}

/// Constant pairs without a type, and bad names after them.
pub fn constant_pairs(to: &mut Comparer, random: &mut Random) -> Ended {
    let counts = [tally::PAIR, tally::OUTER_PAIR, tally::LATER_NAME];
    for _ in 0..share(tally::PAIR) * TRIES * TRIES {
        if counts.iter().all(|name| to.tally.got(name) >= share(name)) {
            break;
        }
        let room = random.range(5, 30);
        let mut sentence = free::sentence(room, true, random);
        let (text, places) = sentence.spell(random);
        let answer = translate(&text, 0).answer;
        if answer.code != WRONG_NAME {
            continue;
        }
        let place = answer.place as usize;
        let name = match parts_typed(&text, place) {
            Some(true) => tally::PAIR,
            _ => tally::OUTER_PAIR,
        };
        to.translations(&Case { source: name.to_string(), text, slice_length: 40 })?;
        to.tally.add(name, 1);
        let is_name = |at: &usize| sentence.words[*at].role == Role::Expression;
        let later: Vec<usize> =
            (0..places.len()).filter(|&at| places[at] > place).filter(is_name).collect();
        let Some(at) = random.pick(&later) else { continue };
        sentence.words[at].letters = "undeclared".to_string();
        let hit = compare(to, tally::LATER_NAME, &sentence, at, random)?;
        to.tally.add_if(tally::LATER_NAME, hit);
    }
    Ok(())
}
