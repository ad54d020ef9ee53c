//! Code 14: which rule on names is broken, and what may have been meant.

use second::text::constants;
use second::text::naming::resolve;
use second::text::parser::parse;
use second::text::reading::tokens;
use second::text::syntax::{Constant, Expression, Name, Syntax};
use second::text::tokens::INPUT;

use super::scope::{find, Known, Role};
use crate::message::{Message, Place};
use crate::near::nearest;
use crate::source::{Piece, Source};

fn piece(name: &Name) -> Piece {
    Piece::new(name.place, name.place + name.letters.len())
}

/// What is wrong with the name, or with the constant pair, at a place.
pub fn explain(source: &Source, place: usize) -> Vec<Message> {
    let at = Place::of(Piece::new(place, place));
    let Ok(tokens) = tokens(&source.bytes) else {
        return vec![Message::error(at, "a name breaks a rule")];
    };
    let syntax = parse(&source.bytes, &tokens);
    if let Some((name, known)) = find(&syntax, place) {
        let (sentence, note) = Fault { name, known: &known, syntax: &syntax }.explain();
        let error = Message::error(Place::of(piece(name)), sentence);
        let note = note.map(|(name, sentence)| Message::note(piece(name), sentence));
        return [Some(error), note].into_iter().flatten().collect();
    }
    match untyped(&syntax, place) {
        Some(parts) => {
            let add = format!("add `TYPE .. = {parts} IN`");
            vec![Message::error(at, format!("no pair type {parts} is declared; {add}"))]
        }
        None => vec![Message::error(at, "a name breaks a rule")],
    }
}

/// The parts of the first pair without a type in the constant at a place.
fn untyped(syntax: &Syntax, place: usize) -> Option<String> {
    let names = resolve(syntax).ok()?;
    let types = constants::types(constants::TAKEN, syntax, &names);
    let whole = syntax.expressions.iter().find_map(|expression| match expression {
        Expression::Delay { constant, .. } => match &syntax.constants[*constant] {
            Constant::Pair(_, _, bracket) if *bracket == place => Some(*constant),
            _ => None,
        },
        _ => None,
    })?;
    let mut open = vec![whole];
    while let Some(number) = open.pop() {
        if let (Constant::Pair(first, second, _), None) = (&syntax.constants[number], types[number])
        {
            if let (Some(first), Some(second)) = (types[*first], types[*second]) {
                let name = |of: usize| &syntax.declarations[of - 1].name.letters;
                return Some(format!("({}, {})", name(first), name(second)));
            }
            open.extend([*second, *first]);
        }
    }
    None
}

/// What a name is, among those known where it stands.
enum Stands<'a> {
    Input,
    Type(&'a Name),
    /// A constructor and its type.
    Constructor(&'a Name, &'a Name),
    Bound(&'a Name),
    Nothing,
}

struct Fault<'a> {
    name: &'a Name,
    known: &'a Known<'a>,
    syntax: &'a Syntax,
}

type Noted<'a> = (String, Option<(&'a Name, &'static str)>);

const DECLARED: &str = "it is declared here";
const BOUND: &str = "it is bound here";

impl<'a> Fault<'a> {
    fn stands(&self) -> Stands<'a> {
        let same = |other: &&'a Name| other.letters == self.name.letters;
        if self.name.letters == INPUT {
            return Stands::Input;
        }
        if let Some(bound) = self.known.scope.iter().copied().rev().find(same) {
            return Stands::Bound(bound);
        }
        if let Some(of) = self.known.types.iter().copied().find(same) {
            return Stands::Type(of);
        }
        let constructors = &self.known.constructors;
        match constructors.iter().copied().find(|(name, _)| same(name)) {
            Some((name, of)) => Stands::Constructor(name, of),
            None => Stands::Nothing,
        }
    }

    fn explain(&self) -> Noted<'a> {
        match self.known.role {
            Role::Declares(of) => self.declaring(of),
            Role::Let => self.binding(),
            _ => self.using(),
        }
    }

    /// A name that is declared, in the declaration of a type.
    fn declaring(&self, of: &'a Name) -> Noted<'a> {
        let letters = &self.name.letters;
        match self.stands() {
            Stands::Input => {
                let no = "no type and no constructor has this name";
                (format!("`{letters}` is the stimulus: {no}"), None)
            }
            Stands::Type(first) | Stands::Constructor(first, _) => {
                (format!("`{letters}` is declared already"), Some((first, DECLARED)))
            }
            _ if of.letters == *letters => {
                let another = "a constructor has another one";
                (format!("`{letters}` is the name of this type: {another}"), None)
            }
            _ => (format!("`{letters}` may not be declared here"), None),
        }
    }

    /// A name that a LET takes.
    fn binding(&self) -> Noted<'a> {
        let letters = &self.name.letters;
        let other = "a LET has another name";
        match self.stands() {
            Stands::Input => (format!("`{letters}` is the stimulus: {other}"), None),
            Stands::Type(first) => {
                (format!("`{letters}` is a type: {other}"), Some((first, DECLARED)))
            }
            Stands::Constructor(first, of) => {
                let of = &of.letters;
                let sentence = format!("`{letters}` is a constructor of `{of}`: {other}");
                (sentence, Some((first, DECLARED)))
            }
            _ => (format!("a LET may not take `{letters}`"), None),
        }
    }

    /// What the place of a name asks for.
    fn wanted(&self) -> &'static str {
        match self.known.role {
            Role::Constant => "a constructor",
            Role::Alternative => "a constructor or a type",
            Role::Expression => "a value",
            _ => "a type",
        }
    }

    /// A name of the wrong kind, or one that is not known.
    fn using(&self) -> Noted<'a> {
        let letters = &self.name.letters;
        let here = format!("and {} stands here", self.wanted());
        match self.stands() {
            Stands::Input => (format!("`{letters}` is the stimulus, {here}"), None),
            Stands::Type(_) => {
                let undefined = format!("its undefined value is `?{letters}`");
                (format!("`{letters}` is a type, {here}; {undefined}"), None)
            }
            Stands::Constructor(_, of) => {
                (format!("`{letters}` is a constructor of `{}`, {here}", of.letters), None)
            }
            Stands::Bound(bound) => {
                (format!("`{letters}` is the name of a LET, {here}"), Some((bound, BOUND)))
            }
            Stands::Nothing => self.unknown(),
        }
    }

    fn unknown(&self) -> Noted<'a> {
        let letters = &self.name.letters;
        let same = |other: &&'a Name| other.letters == *letters;
        if let Role::PartOf(own) = self.known.role {
            if own.letters == *letters {
                let before = "a pair type has parts that are declared before it";
                return (format!("`{letters}` is this very type: {before}"), None);
            }
        }
        let in_expression = matches!(self.known.role, Role::Expression);
        if let Some(bound) = self.known.inside.iter().copied().rev().find(same) {
            if in_expression {
                let feedback = format!("a feedback is `LET INIT ?.. REC {letters} = ..`");
                let own = "is not known in its own defining part";
                return (format!("`{letters}` {own}: {feedback}"), Some((bound, BOUND)));
            }
        }
        let mut types = self.syntax.declarations.iter().map(|declaration| &declaration.name);
        if let Some(later) = types.find(same).filter(|_| !in_expression) {
            let before = "a type is declared before its use";
            let sentence = format!("`{letters}` is declared further down: {before}");
            return (sentence, Some((later, DECLARED)));
        }
        if let Some(bound) = self.bound_elsewhere().filter(|_| in_expression) {
            let only = "is known in the body of its LET only";
            return (format!("`{letters}` {only}"), Some((bound, BOUND)));
        }
        (format!("{}{}", self.not_known(), self.meant()), None)
    }

    /// A LET before this place that binds the name.
    fn bound_elsewhere(&self) -> Option<&'a Name> {
        let bound = self.syntax.expressions.iter().filter_map(|expression| match expression {
            Expression::Let { name, .. } | Expression::Feedback { name, .. } => Some(name),
            _ => None,
        });
        bound
            .filter(|name| name.letters == self.name.letters && name.place < self.name.place)
            .max_by_key(|name| name.place)
    }

    fn not_known(&self) -> String {
        let letters = &self.name.letters;
        match self.known.role {
            Role::Constant => format!("no constructor `{letters}` is declared"),
            Role::Alternative => format!("no constructor and no type `{letters}` is declared"),
            Role::Expression => format!("`{letters}` is not known here"),
            _ => format!("no type `{letters}` is declared"),
        }
    }

    /// The nearest of the names that may stand there.
    fn meant(&self) -> String {
        let types = self.known.types.iter().map(|name| name.letters.as_str());
        let constructors = self.known.constructors.iter().map(|(name, _)| name.letters.as_str());
        let bound = self.known.scope.iter().map(|name| name.letters.as_str());
        let near = match self.known.role {
            Role::Constant => nearest(&self.name.letters, constructors),
            Role::Alternative => nearest(&self.name.letters, constructors.chain(types)),
            Role::Expression => {
                nearest(&self.name.letters, bound.chain([INPUT]).chain(constructors))
            }
            _ => nearest(&self.name.letters, types),
        };
        near.map(|near| format!("; did you mean `{near}`?")).unwrap_or_default()
    }
}
