//! A text before it has bytes: its tokens, each with its letters, and what each
//! name is there for.

use crate::random::Random;

/// What a name is there for.
#[derive(Clone, Copy, PartialEq, Eq, PartialOrd, Ord, Debug)]
pub enum Role {
    /// A keyword or a sign.
    NoName,
    DeclaredType,
    DeclaredConstructor,
    FirstOfPairType,
    SecondOfPairType,
    InputType,
    Let,
    Feedback,
    InitType,
    UndefinedType,
    ConstantType,
    Constant,
    Alternative,
    Expression,
}

#[derive(Clone, Debug)]
pub struct Word {
    pub letters: String,
    pub role: Role,
}

#[derive(Clone, Default, Debug)]
pub struct Sentence {
    pub words: Vec<Word>,
}

/// How blanks stand between tokens.
#[derive(Clone, Copy)]
enum Blanks {
    Needed,
    Single,
    Random,
}

impl Sentence {
    pub fn name(&mut self, letters: &str, role: Role) {
        self.words.push(Word { letters: letters.to_string(), role });
    }

    /// Keywords and signs, with blanks between them.
    pub fn fixed(&mut self, words: &str) {
        for letters in words.split(' ') {
            self.name(letters, Role::NoName);
        }
    }

    /// The bytes with random blanks, and the place of each token.
    pub fn spell(&self, random: &mut Random) -> (Vec<u8>, Vec<usize>) {
        let blanks = [Blanks::Needed, Blanks::Single, Blanks::Random][random.below(3)];
        let mut text = Vec::new();
        let mut places = Vec::new();
        for (number, word) in self.words.iter().enumerate() {
            let letter = |byte: Option<&u8>| byte.is_some_and(u8::is_ascii_alphabetic);
            let needed = letter(text.last()) && letter(word.letters.as_bytes().first());
            match blanks {
                Blanks::Single if number > 0 => text.push(b' '),
                Blanks::Random => blank_run(&mut text, needed, random),
                _ if needed => text.push(if random.one_in(4) { 10 } else { 32 }),
                _ => {}
            }
            places.push(text.len());
            text.extend(word.letters.bytes());
        }
        if random.one_in(2) {
            blank_run(&mut text, false, random);
        }
        (text, places)
    }
}

/// Some blanks; none at times, unless one is needed.
fn blank_run(text: &mut Vec<u8>, needed: bool, random: &mut Random) {
    let most = if random.one_in(30) { 20 } else { 2 };
    for _ in 0..random.range(usize::from(needed), most) {
        text.push(if random.one_in(3) { 10 } else { 32 });
    }
}
