//! Texts outside the grammar: damaged by a byte, cut, or random.

use super::case::{Case, Texts};
use super::legal::{good, share};
use super::tally::{self, PER_ENDED_POSITION, PER_POSITION};
use crate::frame::comparison::{self, Ended, SHARDS, TRIES};
use crate::random::Random;
use crate::text::generate::damage::{any_byte, damage_anywhere, random_bytes};
use crate::text::generate::{free, sizes};
use crate::text::positions::{positions, Position};
use crate::text::reading::{positions_in, tokens, Way};

type Comparer<'a> = comparison::Comparer<'a, Texts>;

/// T.
const T: &str = "TYPE bit=hi|lo IN INPUT bit (LET INIT ?bit REC x=(DELAY(lo,(IF input MATCHES hi \
                 THEN (IF x MATCHES lo THEN hi ELSE lo) ELSE x))) IN x)";

/// Compares a text into a slice that is mostly long enough, and counts where
/// it leaves the grammar.
fn compare(to: &mut Comparer, source: &str, text: Vec<u8>) -> Ended {
    if let Err(illegal) = tokens(&text) {
        tally::add_illegal(&mut to.tally, &illegal);
    }
    let slice_length = match to.lender.fill.below(5) {
        0 => to.lender.fill.below(60),
        _ if text.len() < 400 => 3_000,
        _ => 30_000,
    };
    to.translations(&Case { source: source.to_string(), text, slice_length })?;
    Ok(())
}

/// T cut at every place, and with every byte at every place.
pub fn changes_of_t(to: &mut Comparer) -> Ended {
    for length in 0..=T.len() {
        compare(to, tally::PREFIXES, T.as_bytes()[..length].to_vec())?;
        to.tally.add(tally::PREFIXES, 1);
    }
    for at in 0..T.len() {
        for byte in 0..=255 {
            let mut text = T.as_bytes().to_vec();
            text[at] = byte;
            compare(to, tally::BYTES, text)?;
            to.tally.add(tally::BYTES, 1);
        }
    }
    Ok(())
}

/// Texts that leave the grammar at each of its positions, at a byte and at
/// their end, until all have enough.
pub fn at_positions(to: &mut Comparer, random: &mut Random) -> Ended {
    let all = positions();
    let wanted = |to: &Comparer, position: Position, ended: bool| {
        let need = if ended { PER_ENDED_POSITION } else { PER_POSITION };
        let possible = !ended || position.needed.is_some();
        possible && to.tally.got(&tally::of_position(position, ended)) < need.div_ceil(SHARDS)
    };
    for _ in 0..PER_POSITION * TRIES {
        let room = random.range(1, 30);
        let (mut whole, _) = free::sentence(room, false, random).spell(random);
        whole.push(b' ');
        let places = positions_in(&whole);
        let mut complete = true;
        for &position in &all {
            for ended in [false, true] {
                if !wanted(to, position, ended) {
                    continue;
                }
                complete = false;
                let here: Vec<usize> =
                    (0..places.len()).filter(|&place| places[place].0 == position).collect();
                let Some(place) = random.pick(&here) else { continue };
                let mut text = whole.clone();
                match random.below(2) {
                    _ if ended => text.truncate(place),
                    0 => text[place] = any_byte(random),
                    _ => text.insert(place, any_byte(random)),
                }
                compare(to, &format!("13: {}", position.words()), text)?;
            }
        }
        if complete {
            break;
        }
    }
    Ok(())
}

/// Any text damaged anywhere, names that are too long, random bytes.
pub fn damaged(to: &mut Comparer, random: &mut Random) -> Ended {
    for _ in 0..share(tally::DAMAGED) {
        let (mut text, _) = good(random).spell(random);
        for _ in 0..if random.one_in(5) { random.range(2, 4) } else { 1 } {
            damage_anywhere(&mut text, random);
        }
        compare(to, tally::DAMAGED, text)?;
        to.tally.add(tally::DAMAGED, 1);
    }
    for _ in 0..share(tally::LATER_NAME) * 2 {
        let (text, _) = sizes::with_long_name(&good(random), random).spell(random);
        compare(to, "a long name", text)?;
    }
    for _ in 0..share(tally::RANDOM) {
        let length = random.below(80);
        let mut text = random_bytes(length, random);
        if random.one_in(2) {
            text.splice(0..0, b"TYPE a=b IN INPUT a ".iter().copied());
        }
        compare(to, tally::RANDOM, text)?;
        to.tally.add(tally::RANDOM, 1);
    }
    too_long(to, random)
}

/// Legal up to byte 65,535, or damaged near it.
fn too_long(to: &mut Comparer, random: &mut Random) -> Ended {
    while to.tally.got(&tally::of_way(Way::TooLong)) < share(tally::TOO_LONG) {
        let bytes = random.range(65_534, 65_540);
        let mut text = sizes::of_bytes(&good(random), bytes, random);
        if random.one_in(3) {
            let at = random.range(text.len() - 9, text.len() - 1);
            text[at] = any_byte(random);
        }
        compare(to, "near 65,535 bytes", text)?;
    }
    Ok(())
}
