//! Random names.

use std::collections::HashSet;

use crate::random::Random;
use crate::text::tokens::{INPUT, LONGEST_NAME};

/// Words in small letters that are keywords in capitals, and near misses.
const LIKE_KEYWORDS: [&str; 8] = ["in", "type", "let", "init", "rec", "if", "inputs", "inpu"];

/// Gives names; those of types and constructors only once.
pub struct Namer {
    taken: HashSet<String>,
}

impl Default for Namer {
    fn default() -> Self {
        Namer::new()
    }
}

impl Namer {
    pub fn new() -> Namer {
        Namer { taken: HashSet::from([INPUT.to_string()]) }
    }

    /// A name for a type or a constructor.
    pub fn declared(&mut self, random: &mut Random) -> String {
        let name = self.free(random);
        self.taken.insert(name.clone());
        name
    }

    /// A name that no type and no constructor has.
    pub fn free(&self, random: &mut Random) -> String {
        loop {
            let name = any(random);
            if !self.taken.contains(&name) {
                return name;
            }
        }
    }
}

/// Any name: mostly short, at times as long as can be.
pub fn any(random: &mut Random) -> String {
    let letters = match random.below(20) {
        0 => LONGEST_NAME,
        1 => random.range(5, LONGEST_NAME),
        2 => return LIKE_KEYWORDS[random.below(LIKE_KEYWORDS.len())].to_string(),
        _ => random.range(1, 4),
    };
    of_letters(letters, random)
}

/// A name of so many letters.
pub fn of_letters(letters: usize, random: &mut Random) -> String {
    (0..letters).map(|_| char::from(b'a' + random.below(26) as u8)).collect()
}
