//! The text of a random circuit that keeps every rule. Where a constant of a
//! pair type has defined leaves it becomes a pair.

use std::collections::HashMap;

use super::namer::Namer;
use super::sentence::{Role, Sentence};
use crate::draft::Draft;
use crate::random::Random;
use crate::records::{
    A, B, C, CONSTANT, CONSTRUCTOR, D, DELAY, FEEDBACK, FIRST, IF, LET, NAME, NEXT, PAIR, SECOND,
    WHOLE,
};
use crate::text::tokens::INPUT;

struct Writer<'a> {
    draft: &'a Draft,
    random: &'a mut Random,
    namer: Namer,
    sentence: Sentence,
    types: HashMap<usize, String>,
    constructors: HashMap<usize, Vec<String>>,
    /// The names in scope, the innermost last.
    scope: Vec<String>,
}

/// The text of a circuit, with random names.
pub fn sentence(draft: &Draft, random: &mut Random) -> Sentence {
    let mut writer = Writer {
        draft,
        random,
        namer: Namer::new(),
        sentence: Sentence::default(),
        types: HashMap::new(),
        constructors: HashMap::new(),
        scope: vec![INPUT.to_string()],
    };
    for &of in &draft.chain {
        writer.declaration(of);
    }
    writer.sentence.fixed("INPUT");
    let input = writer.types[&draft.input()].clone();
    writer.sentence.name(&input, Role::InputType);
    writer.expression(draft.root());
    writer.sentence
}

impl Writer<'_> {
    fn fixed(&mut self, words: &str) {
        self.sentence.fixed(words);
    }

    fn of_type(&mut self, of: usize, role: Role) {
        self.sentence.name(&self.types[&of], role);
    }

    fn declaration(&mut self, of: usize) {
        let name = self.namer.declared(self.random);
        self.fixed("TYPE");
        self.sentence.name(&name, Role::DeclaredType);
        self.fixed("=");
        match self.draft.parts(of) {
            Some((first, second)) => {
                self.fixed("(");
                self.of_type(first, Role::FirstOfPairType);
                self.fixed(",");
                self.of_type(second, Role::SecondOfPairType);
                self.fixed(")");
            }
            None => {
                let count = self.draft.nodes[of].number(A);
                let names: Vec<String> =
                    (0..count).map(|_| self.namer.declared(self.random)).collect();
                for (before, name) in names.iter().enumerate() {
                    if before > 0 {
                        self.fixed("|");
                    }
                    self.sentence.name(name, Role::DeclaredConstructor);
                }
                self.constructors.insert(of, names);
            }
        }
        self.fixed("IN");
        self.types.insert(of, name);
    }

    /// The node that a word of a node refers to.
    fn part(&self, node: usize, word: usize) -> usize {
        self.draft.nodes[node].target(word).unwrap_or(0)
    }

    fn expression(&mut self, node: usize) {
        match self.draft.kind(node) {
            CONSTANT => {
                let (of, leaves) = (self.part(node, A), self.leaves(node));
                self.constant(of, &leaves, [Role::Expression, Role::UndefinedType]);
            }
            NAME => {
                let distance = usize::from(self.draft.nodes[node].number(A));
                let name = self.scope[self.scope.len() - 1 - distance].clone();
                self.sentence.name(&name, Role::Expression);
            }
            PAIR => {
                self.fixed("(");
                self.expression(self.part(node, A));
                self.fixed(",");
                self.expression(self.part(node, B));
                self.fixed(")");
            }
            FIRST => {
                self.expression(self.part(node, A));
                self.fixed("[ 1 ]");
            }
            SECOND => {
                self.expression(self.part(node, A));
                self.fixed("[ 2 ]");
            }
            LET => self.bind(node),
            FEEDBACK => self.feedback(node),
            IF => self.choice(node),
            DELAY => {
                self.fixed("( DELAY (");
                let (of, leaves) = (self.part(node, A), self.leaves(node));
                self.constant(of, &leaves, [Role::Constant, Role::ConstantType]);
                self.fixed(",");
                self.expression(self.part(node, C));
                self.fixed(") )");
            }
            kind => panic!("kind {kind} is no expression"),
        }
    }

    fn bind(&mut self, node: usize) {
        let (defining, body) = (self.part(node, A), self.part(node, B));
        let name = self.local(&[body]);
        self.fixed("( LET");
        self.sentence.name(&name, Role::Let);
        self.fixed("=");
        self.expression(defining);
        self.fixed("IN");
        self.scope.push(name);
        self.expression(body);
        self.scope.pop();
        self.fixed(")");
    }

    fn feedback(&mut self, node: usize) {
        let (defining, body) = (self.part(node, B), self.part(node, C));
        let name = self.local(&[defining, body]);
        self.fixed("( LET INIT ?");
        self.of_type(self.part(node, A), Role::InitType);
        self.fixed("REC");
        self.sentence.name(&name, Role::Feedback);
        self.fixed("=");
        self.scope.push(name);
        self.expression(defining);
        self.fixed("IN");
        self.expression(body);
        self.scope.pop();
        self.fixed(")");
    }

    fn choice(&mut self, node: usize) {
        self.fixed("( IF");
        self.expression(self.part(node, A));
        self.fixed("MATCHES");
        self.pattern(self.part(node, D));
        self.fixed("THEN");
        self.expression(self.part(node, B));
        self.fixed("ELSE");
        self.expression(self.part(node, C));
        self.fixed(")");
    }

    /// A chain of alternatives.
    fn pattern(&mut self, first: usize) {
        let mut next = Some(first);
        while let Some(node) = next {
            if node != first {
                self.fixed("|");
            }
            match self.draft.kind(node) {
                WHOLE => self.of_type(self.part(node, A), Role::Alternative),
                CONSTRUCTOR => {
                    let number = usize::from(self.draft.nodes[node].number(B));
                    let name = &self.constructors[&self.part(node, A)][number - 1];
                    self.sentence.name(name, Role::Alternative);
                }
                _ => {
                    self.fixed("(");
                    self.pattern(self.part(node, A));
                    self.fixed(",");
                    self.pattern(self.part(node, B));
                    self.fixed(")");
                }
            }
            next = self.draft.nodes[node].target(NEXT);
        }
    }

    /// The values of the leaves of a constant or delay.
    fn leaves(&self, node: usize) -> Vec<u16> {
        let first = self.draft.nodes[node].target(B);
        std::iter::successors(first, |&leaf| self.draft.nodes[leaf].target(NEXT))
            .map(|leaf| self.draft.nodes[leaf].number(A))
            .collect()
    }

    /// A constant; the roles of its constructors and of its types after `?`.
    fn constant(&mut self, of: usize, leaves: &[u16], roles: [Role; 2]) {
        let parts = self.draft.parts(of);
        let undefined = leaves.iter().all(|&leaf| leaf == 0);
        match parts {
            Some((first, second)) if !undefined || self.random.one_in(3) => {
                let (low, high) = leaves.split_at(self.draft.width(first) as usize);
                self.fixed("(");
                self.constant(first, low, roles);
                self.fixed(",");
                self.constant(second, high, roles);
                self.fixed(")");
            }
            _ if undefined => {
                self.fixed("?");
                self.of_type(of, roles[1]);
            }
            _ => {
                let name = &self.constructors[&of][usize::from(leaves[0]) - 1];
                self.sentence.name(name, roles[0]);
            }
        }
    }

    /// A name for a LET; at times one that hides a name that is not used in the
    /// expressions in which the LET's is known.
    fn local(&mut self, known_in: &[usize]) -> String {
        let names = self.scope.len();
        if names > 1 && self.random.one_in(2) {
            let name = self.scope[self.random.range(1, names - 1)].clone();
            let hidden = (1..names).filter(|&at| self.scope[at] == name);
            let mut distances = hidden.map(|at| names - at);
            if !distances.any(|d| known_in.iter().any(|&node| self.refers(node, d))) {
                return name;
            }
        }
        self.namer.free(self.random)
    }

    /// Whether an expression uses the name at a distance.
    fn refers(&self, node: usize, distance: usize) -> bool {
        let part = |word: usize, added: usize| {
            let part = self.draft.nodes[node].target(word);
            part.is_some_and(|part| self.refers(part, distance + added))
        };
        match self.draft.kind(node) {
            NAME => usize::from(self.draft.nodes[node].number(A)) == distance,
            PAIR => part(A, 0) || part(B, 0),
            FIRST | SECOND => part(A, 0),
            LET => part(A, 0) || part(B, 1),
            FEEDBACK => part(B, 1) || part(C, 1),
            IF => part(A, 0) || part(B, 0) || part(C, 0),
            DELAY => part(C, 0),
            _ => false,
        }
    }
}
