//! Bad names put into a text whose names are right: one category for each rule
//! on declaring, scope and kind, and each way to break it.

use super::namer;
use super::sentence::{Role, Sentence};
use crate::random::Random;
use crate::text::tokens::INPUT;

/// What stands in the place of a name.
#[derive(Clone, Copy, PartialEq, Eq, Debug)]
enum With {
    Undeclared,
    EarlierType,
    OwnType,
    LaterType,
    Constructor,
    EarlierConstructor,
    Input,
    /// A LET's name, in scope or not.
    Local,
    /// The name of a LET around it, in whose defining part it stands.
    OwnLet,
    /// The name of a LET in which it does not stand.
    OtherLet,
}

pub struct Category {
    pub name: String,
    role: Role,
    with: With,
}

/// All categories of bad names.
pub fn categories() -> Vec<Category> {
    use With::{
        Constructor, EarlierConstructor, EarlierType, Input, LaterType, Local, OtherLet, OwnLet,
        OwnType, Undeclared,
    };
    let of_kind: &[With] = &[Undeclared, Constructor, Local, Input];
    let of_pair_type: &[With] = &[Undeclared, OwnType, LaterType, EarlierConstructor, Input];
    let of_let: &[With] = &[EarlierType, Constructor, Input];
    let all: [(Role, &str, &[With]); 13] = [
        (Role::DeclaredType, "declared type", &[EarlierType, EarlierConstructor, Input]),
        (
            Role::DeclaredConstructor,
            "declared constructor",
            &[EarlierType, OwnType, EarlierConstructor, Input],
        ),
        (Role::FirstOfPairType, "first part of a pair type", of_pair_type),
        (Role::SecondOfPairType, "second part of a pair type", of_pair_type),
        (Role::InputType, "type after INPUT", &[Undeclared, Constructor, Input]),
        (Role::Let, "name of a LET", of_let),
        (Role::Feedback, "name of a LET REC", of_let),
        (Role::InitType, "type after INIT ?", of_kind),
        (Role::UndefinedType, "type after ?", of_kind),
        (Role::ConstantType, "type after ? in a constant", of_kind),
        (Role::Constant, "constructor in a constant", &[Undeclared, EarlierType, Local, Input]),
        (Role::Alternative, "alternative", &[Undeclared, Local, Input]),
        (Role::Expression, "name in an expression", &[Undeclared, EarlierType, OwnLet, OtherLet]),
    ];
    let category = |role: Role, what: &str, with: With| Category {
        name: format!("{what}: {}", words(with)),
        role,
        with,
    };
    all.into_iter()
        .flat_map(|(role, what, ways)| ways.iter().map(move |&with| category(role, what, with)))
        .collect()
}

fn words(with: With) -> &'static str {
    match with {
        With::Undeclared => "not declared",
        With::EarlierType => "a type declared before",
        With::OwnType => "the type being declared",
        With::LaterType => "a type declared after",
        With::Constructor => "a constructor",
        With::EarlierConstructor => "a constructor declared before",
        With::Input => "input",
        With::Local => "a LET's name",
        With::OwnLet => "the name of the LET that it defines",
        With::OtherLet => "the name of a LET elsewhere",
    }
}

impl Category {
    /// Puts a bad name into a text; the number of its token, none if there is
    /// no place for it.
    pub fn put(&self, sentence: &mut Sentence, random: &mut Random) -> Option<usize> {
        let (at, letters) = match self.with {
            With::OwnLet | With::OtherLet => self.let_name(sentence, random)?,
            _ => {
                let at = some(sentence, random, |_, role| role == self.role)?;
                (at, self.replacement(sentence, at, random)?)
            }
        };
        sentence.words[at].letters = letters;
        Some(at)
    }

    /// Letters for the place of a token.
    fn replacement(&self, sentence: &Sentence, at: usize, random: &mut Random) -> Option<String> {
        let own = (0..at).rev().find(|&k| sentence.words[k].role == Role::DeclaredType);
        let own = own.filter(|_| {
            use Role::{DeclaredConstructor, FirstOfPairType, SecondOfPairType};
            [DeclaredConstructor, FirstOfPairType, SecondOfPairType].contains(&self.role)
        });
        let is_type = |role: Role| role == Role::DeclaredType;
        let is_constructor = |role: Role| role == Role::DeclaredConstructor;
        let is_local = |role: Role| role == Role::Let || role == Role::Feedback;
        let found = match self.with {
            With::Undeclared => return Some(undeclared(sentence, random)),
            With::Input => return Some(INPUT.to_string()),
            With::OwnType => own,
            With::EarlierType => {
                some(sentence, random, |k, role| k < at && Some(k) != own && is_type(role))
            }
            With::LaterType => some(sentence, random, |k, role| k > at && is_type(role)),
            With::Constructor => some(sentence, random, |_, role| is_constructor(role)),
            With::EarlierConstructor => {
                some(sentence, random, |k, role| k < at && is_constructor(role))
            }
            With::Local => some(sentence, random, |_, role| is_local(role)),
            With::OwnLet | With::OtherLet => None,
        };
        found.map(|k| sentence.words[k].letters.clone())
    }

    /// A name in a LET's defining part, or outside a LET, and the LET's name,
    /// which no other LET has.
    fn let_name(&self, sentence: &Sentence, random: &mut Random) -> Option<(usize, String)> {
        let own = self.with == With::OwnLet;
        let local = |role: Role| role == Role::Let || role == Role::Feedback;
        let once = |letters: &str| {
            let same = sentence.words.iter().filter(|w| local(w.role) && w.letters == letters);
            same.count() == 1
        };
        let name = some(sentence, random, |k, role| {
            local(role) && !(own && role == Role::Feedback) && once(&sentence.words[k].letters)
        })?;
        let (defined, closed) = ends(sentence, name);
        let place = |k: usize, role: Role| {
            let stands = if own { k > name && k < defined } else { k < name || k > closed };
            role == self.role && stands
        };
        let at = some(sentence, random, place)?;
        Some((at, sentence.words[name].letters.clone()))
    }
}

/// A random token that passes a test on its number and role.
fn some(
    sentence: &Sentence,
    random: &mut Random,
    passes: impl Fn(usize, Role) -> bool,
) -> Option<usize> {
    let words = sentence.words.iter().enumerate();
    let found: Vec<usize> = words
        .filter(|(number, word)| passes(*number, word.role))
        .map(|(number, _)| number)
        .collect();
    random.pick(&found)
}

/// A name that stands nowhere in a text.
fn undeclared(sentence: &Sentence, random: &mut Random) -> String {
    loop {
        let name = namer::any(random);
        if name != INPUT && sentence.words.iter().all(|word| word.letters != name) {
            return name;
        }
    }
}

/// The IN that ends the defining part of the LET with this name, and the
/// bracket that ends the LET.
fn ends(sentence: &Sentence, name: usize) -> (usize, usize) {
    let mut depth = 0;
    let mut defined = None;
    for (number, word) in sentence.words.iter().enumerate().skip(name) {
        match word.letters.as_str() {
            "(" => depth += 1,
            ")" if depth == 0 => return (defined.unwrap_or(number), number),
            ")" => depth -= 1,
            "IN" if depth == 0 => defined = defined.or(Some(number)),
            _ => {}
        }
    }
    let last = sentence.words.len();
    (defined.unwrap_or(last), last)
}
