//! Texts damaged by a byte, or cut.

use crate::random::Random;
use crate::text::tokens::{KEYWORDS, SIGNS};

/// Any byte; mostly one of a text.
pub fn any_byte(random: &mut Random) -> u8 {
    match random.below(10) {
        0 => random.draw() as u8,
        1 => [0, 9, 11, 13, 31, 33, b'0', b'3', b'*', b'_', b'{', 127, 128, 255][random.below(14)],
        2 => [32, 10][random.below(2)],
        3..=5 => SIGNS[random.below(SIGNS.len())].0,
        6 | 7 => b'a' + random.below(26) as u8,
        8 => b'A' + random.below(26) as u8,
        _ => {
            let keyword = KEYWORDS[random.below(KEYWORDS.len())].0.as_bytes();
            keyword[random.below(keyword.len())]
        }
    }
}

/// Changes, inserts or leaves out a byte at a place, or cuts the text there.
pub fn damage(text: &mut Vec<u8>, place: usize, random: &mut Random) {
    match random.below(4) {
        0 if place < text.len() => text[place] = any_byte(random),
        1 => text.insert(place, any_byte(random)),
        2 if place < text.len() => {
            text.remove(place);
        }
        _ => text.truncate(place),
    }
}

/// Damages a text at any place.
pub fn damage_anywhere(text: &mut Vec<u8>, random: &mut Random) {
    let place = random.below(text.len() + 1);
    damage(text, place, random);
}

/// Random bytes, mostly those of texts.
pub fn random_bytes(length: usize, random: &mut Random) -> Vec<u8> {
    (0..length).map(|_| any_byte(random)).collect()
}
