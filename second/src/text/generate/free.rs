//! Random texts whose names are right and whose types may be wrong: what the
//! translation takes and the check may refuse.

use super::namer::Namer;
use super::sentence::{Role, Sentence};
use crate::random::Random;
use crate::text::tokens::INPUT;

/// A declared type.
struct Type {
    name: String,
    parts: Option<(usize, usize)>,
    constructors: Vec<String>,
}

struct Grower<'a> {
    random: &'a mut Random,
    namer: Namer,
    sentence: Sentence,
    types: Vec<Type>,
    /// The names in scope, the innermost last.
    scope: Vec<String>,
    /// Whether pairs of constants may lack a type.
    untyped: bool,
}

/// A text of about so many expressions. Pairs in the constants of DELAYs all
/// have a type, or, if `untyped`, some have none.
pub fn sentence(room: usize, untyped: bool, random: &mut Random) -> Sentence {
    let mut grower = Grower {
        random,
        namer: Namer::new(),
        sentence: Sentence::default(),
        types: Vec::new(),
        scope: vec![INPUT.to_string()],
        untyped,
    };
    grower.declarations();
    grower.fixed("INPUT");
    let input = grower.any_type();
    grower.type_name(input, Role::InputType);
    grower.expression(room);
    grower.sentence
}

impl Grower<'_> {
    fn fixed(&mut self, words: &str) {
        self.sentence.fixed(words);
    }

    fn any_type(&mut self) -> usize {
        self.random.below(self.types.len())
    }

    fn type_name(&mut self, of: usize, role: Role) {
        self.sentence.name(&self.types[of].name, role);
    }

    /// Flat types, pair types of any two, the same two at times, and pairs of
    /// equal parts up to more than 64 leaves.
    fn declarations(&mut self) {
        let count = if self.random.one_in(20) { 300 } else { self.random.range(1, 4) };
        self.flat(count);
        if self.random.one_in(4) {
            for _ in 0..self.random.range(5, 8) {
                let last = self.types.len() - 1;
                self.pair(last, last);
            }
        }
        for _ in 0..self.random.below(8) {
            if self.random.one_in(3) {
                let count = self.random.range(1, 5);
                self.flat(count);
            } else {
                let (first, second) = (self.any_type(), self.any_type());
                self.pair(first, second);
            }
        }
    }

    fn flat(&mut self, count: usize) {
        let name = self.namer.declared(self.random);
        let constructors: Vec<String> =
            (0..count).map(|_| self.namer.declared(self.random)).collect();
        self.fixed("TYPE");
        self.sentence.name(&name, Role::DeclaredType);
        self.fixed("=");
        for (before, constructor) in constructors.iter().enumerate() {
            if before > 0 {
                self.fixed("|");
            }
            self.sentence.name(constructor, Role::DeclaredConstructor);
        }
        self.fixed("IN");
        self.types.push(Type { name, parts: None, constructors });
    }

    fn pair(&mut self, first: usize, second: usize) {
        let name = self.namer.declared(self.random);
        self.fixed("TYPE");
        self.sentence.name(&name, Role::DeclaredType);
        self.fixed("= (");
        self.type_name(first, Role::FirstOfPairType);
        self.fixed(",");
        self.type_name(second, Role::SecondOfPairType);
        self.fixed(") IN");
        self.types.push(Type { name, parts: Some((first, second)), constructors: Vec::new() });
    }

    fn expression(&mut self, room: usize) {
        match self.random.below(if room < 2 { 2 } else { 12 }) {
            0 | 2 => {
                let of = self.any_type();
                self.fixed("?");
                self.type_name(of, Role::UndefinedType);
            }
            1 | 3 => self.name(),
            4 | 5 => {
                let left = self.random.below(room);
                self.fixed("(");
                self.expression(left);
                self.fixed(",");
                self.expression(room - left - 1);
                self.fixed(")");
            }
            6 | 7 => {
                self.expression(room - 1);
                for _ in 0..self.random.range(1, 4) {
                    let part = if self.random.one_in(2) { "[ 1 ]" } else { "[ 2 ]" };
                    self.fixed(part);
                }
            }
            8 => self.bind(room),
            9 => self.feedback(room),
            10 => self.choice(room),
            _ => self.delay(room),
        }
    }

    /// A name in scope, or a constructor.
    fn name(&mut self) {
        let flat = self.flat_type();
        let name = match self.random.below(3) {
            0 => self.constructor(flat),
            _ => self.scope[self.random.below(self.scope.len())].clone(),
        };
        self.sentence.name(&name, Role::Expression);
    }

    fn flat_type(&mut self) -> usize {
        let flat = |at: &usize| self.types[*at].parts.is_none();
        let flats: Vec<usize> = (0..self.types.len()).filter(flat).collect();
        flats[self.random.below(flats.len())]
    }

    fn constructor(&mut self, flat: usize) -> String {
        let constructors = &self.types[flat].constructors;
        constructors[self.random.below(constructors.len())].clone()
    }

    /// A name for a LET: a new one, or one that a LET around it has.
    fn local(&mut self) -> String {
        if self.scope.len() > 1 && self.random.one_in(2) {
            return self.scope[self.random.range(1, self.scope.len() - 1)].clone();
        }
        self.namer.free(self.random)
    }

    fn bind(&mut self, room: usize) {
        let left = self.random.below(room);
        let name = self.local();
        self.fixed("( LET");
        self.sentence.name(&name, Role::Let);
        self.fixed("=");
        self.expression(left);
        self.fixed("IN");
        self.scope.push(name);
        self.expression(room - left - 1);
        self.scope.pop();
        self.fixed(")");
    }

    fn feedback(&mut self, room: usize) {
        let left = self.random.below(room);
        let (name, of) = (self.local(), self.any_type());
        self.fixed("( LET INIT ?");
        self.type_name(of, Role::InitType);
        self.fixed("REC");
        self.sentence.name(&name, Role::Feedback);
        self.fixed("=");
        self.scope.push(name);
        self.expression(left);
        self.fixed("IN");
        self.expression(room - left - 1);
        self.scope.pop();
        self.fixed(")");
    }

    fn choice(&mut self, room: usize) {
        self.fixed("( IF");
        self.expression(room / 4);
        self.fixed("MATCHES");
        self.pattern(3);
        self.fixed("THEN");
        self.expression(room / 4);
        self.fixed("ELSE");
        self.expression(room / 4);
        self.fixed(")");
    }

    /// Pair patterns nest no more than so deep.
    fn pattern(&mut self, depth: usize) {
        loop {
            match self.random.below(if depth == 0 { 2 } else { 3 }) {
                0 => {
                    let of = self.any_type();
                    self.type_name(of, Role::Alternative);
                }
                1 => {
                    let flat = self.flat_type();
                    let name = self.constructor(flat);
                    self.sentence.name(&name, Role::Alternative);
                }
                _ => {
                    self.fixed("(");
                    self.pattern(depth - 1);
                    self.fixed(",");
                    self.pattern(depth - 1);
                    self.fixed(")");
                }
            }
            if !self.random.one_in(3) {
                return;
            }
            self.fixed("|");
        }
    }

    fn delay(&mut self, room: usize) {
        let of = self.any_type();
        self.fixed("( DELAY (");
        self.constant(of, 6);
        self.fixed(",");
        self.expression(room - 1);
        self.fixed(") )");
    }

    /// A constant of a type, of pairs no more than so deep: a pair only where
    /// this is the first pair type of its parts. Or any pair, if `untyped`.
    fn constant(&mut self, of: usize, depth: usize) {
        if self.untyped && depth > 0 && self.random.one_in(4) {
            let (first, second) = (self.any_type(), self.any_type());
            return self.constant_pair(first, second, depth);
        }
        let parts = self.types[of].parts.filter(|_| depth > 0 && self.is_first(of));
        match parts {
            Some((first, second)) if !self.random.one_in(4) => {
                self.constant_pair(first, second, depth);
            }
            None if self.types[of].parts.is_none() && !self.random.one_in(4) => {
                let name = self.constructor(of);
                self.sentence.name(&name, Role::Constant);
            }
            _ => {
                self.fixed("?");
                self.type_name(of, Role::ConstantType);
            }
        }
    }

    fn constant_pair(&mut self, first: usize, second: usize, depth: usize) {
        self.fixed("(");
        self.constant(first, depth - 1);
        self.fixed(",");
        self.constant(second, depth - 1);
        self.fixed(")");
    }

    /// Whether no type before this one has its parts.
    fn is_first(&self, of: usize) -> bool {
        self.types.iter().position(|t| t.parts == self.types[of].parts) == Some(of)
    }
}
