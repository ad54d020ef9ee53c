//! A circuit before it has numbers: nodes that refer to each other. A layout
//! turns it into records.

use crate::random::Random;
use crate::records::{
    A, B, C, CONSTANT, CONSTRUCTOR, D, DELAY, FEEDBACK, FIRST, FLAT, HEADER, IF, KIND, LEAF, LET,
    NAME, NEXT, PAIR, PAIR_PATTERN, PAIR_TYPE, SECOND, WHOLE,
};

/// A word of a node.
#[derive(Clone, Copy, PartialEq, Eq, Debug)]
pub enum Term {
    Number(u16),
    /// A type, which needs a lower number than the node (but for the header).
    Type(usize),
    /// A named node, which needs a higher number than the node.
    Part(usize),
}

#[derive(Clone)]
pub struct Node {
    pub words: [Term; 6],
    /// The type of an expression, or the type that a pattern tests.
    pub of: usize,
    /// The leaves of a type.
    pub width: u64,
}

impl Node {
    pub fn kind(&self) -> u16 {
        match self.words[KIND] {
            Term::Number(kind) => kind,
            _ => 0,
        }
    }

    /// The node that a word refers to.
    pub fn target(&self, word: usize) -> Option<usize> {
        match self.words[word] {
            Term::Number(_) => None,
            Term::Type(node) | Term::Part(node) => Some(node),
        }
    }

    /// The plain number in a word.
    pub fn number(&self, word: usize) -> u16 {
        match self.words[word] {
            Term::Number(value) => value,
            _ => 0,
        }
    }
}

/// The header is node 0. Its next, its count and the nexts of the types in
/// the chain are filled in by the layout.
#[derive(Clone)]
pub struct Draft {
    pub nodes: Vec<Node>,
    /// The types in the order of their chain.
    pub chain: Vec<usize>,
    /// Nodes that are laid out though nothing names them.
    pub orphans: Vec<usize>,
}

impl Default for Draft {
    fn default() -> Self {
        Draft::new()
    }
}

impl Draft {
    pub fn new() -> Draft {
        let mut draft = Draft { nodes: Vec::new(), chain: Vec::new(), orphans: Vec::new() };
        draft.add(HEADER, &[], 0);
        draft
    }

    pub fn add(&mut self, kind: u16, words: &[(usize, Term)], of: usize) -> usize {
        let mut node = Node { words: [Term::Number(0); 6], of, width: 0 };
        node.words[KIND] = Term::Number(kind);
        for &(word, term) in words {
            node.words[word] = term;
        }
        self.nodes.push(node);
        self.nodes.len() - 1
    }

    pub fn set_input(&mut self, of: usize) {
        self.nodes[0].words[A] = Term::Type(of);
    }

    pub fn input(&self) -> usize {
        self.nodes[0].target(A).unwrap_or(0)
    }

    pub fn set_root(&mut self, root: usize) {
        self.nodes[0].words[B] = Term::Part(root);
    }

    pub fn root(&self) -> usize {
        self.nodes[0].target(B).unwrap_or(0)
    }

    pub fn kind(&self, node: usize) -> u16 {
        self.nodes[node].kind()
    }

    pub fn width(&self, of: usize) -> u64 {
        self.nodes[of].width
    }

    // Types.

    /// A flat type that is not yet in the chain.
    pub fn loose_flat(&mut self, count: u16) -> usize {
        let node = self.add(FLAT, &[(A, Term::Number(count))], 0);
        self.nodes[node].width = 1;
        node
    }

    pub fn flat(&mut self, count: u16) -> usize {
        let node = self.loose_flat(count);
        self.chain.push(node);
        node
    }

    /// A pair type that is not yet in the chain.
    pub fn loose_pair_type(&mut self, first: usize, second: usize) -> usize {
        let node = self.add(PAIR_TYPE, &[(A, Term::Type(first)), (B, Term::Type(second))], 0);
        self.nodes[node].width = self.width(first).saturating_add(self.width(second));
        node
    }

    pub fn pair_type(&mut self, first: usize, second: usize) -> usize {
        let node = self.loose_pair_type(first, second);
        self.chain.push(node);
        node
    }

    /// The parts of a pair type.
    pub fn parts(&self, of: usize) -> Option<(usize, usize)> {
        if self.kind(of) != PAIR_TYPE {
            return None;
        }
        Some((self.nodes[of].target(A)?, self.nodes[of].target(B)?))
    }

    /// The pair type with these parts.
    pub fn find_pair(&self, first: usize, second: usize) -> Option<usize> {
        self.chain.iter().copied().find(|&t| self.parts(t) == Some((first, second)))
    }

    /// The pair type with these parts, made if there is none.
    pub fn need_pair(&mut self, first: usize, second: usize) -> usize {
        self.find_pair(first, second).unwrap_or_else(|| self.pair_type(first, second))
    }

    /// The counts of a type's leaves, in order.
    pub fn counts(&self, of: usize) -> Vec<u16> {
        let mut counts = Vec::new();
        let mut open = vec![of];
        while let Some(node) = open.pop() {
            match self.parts(node) {
                None => counts.push(self.nodes[node].number(A)),
                Some((first, second)) => open.extend([second, first]),
            }
        }
        counts
    }

    // Leaves and expressions.

    /// A chain of leaves; the first of them.
    pub fn leaves(&mut self, values: &[u16]) -> usize {
        let mut next = Term::Number(0);
        for &value in values.iter().rev() {
            next = Term::Part(self.add(LEAF, &[(NEXT, next), (A, Term::Number(value))], 0));
        }
        match next {
            Term::Part(first) => first,
            _ => 0,
        }
    }

    /// A chain of leaves with random values of a type.
    pub fn random_leaves(&mut self, of: usize, random: &mut Random) -> usize {
        let counts = self.counts(of);
        let values: Vec<u16> =
            counts.iter().map(|&n| random.below(usize::from(n) + 1) as u16).collect();
        self.leaves(&values)
    }

    pub fn constant(&mut self, of: usize, leaf: usize) -> usize {
        self.add(CONSTANT, &[(A, Term::Type(of)), (B, Term::Part(leaf))], of)
    }

    pub fn random_constant(&mut self, of: usize, random: &mut Random) -> usize {
        let leaf = self.random_leaves(of, random);
        self.constant(of, leaf)
    }

    pub fn name(&mut self, number: u16, of: usize) -> usize {
        self.add(NAME, &[(A, Term::Number(number))], of)
    }

    pub fn pair(&mut self, first: usize, second: usize, of: usize) -> usize {
        self.add(PAIR, &[(A, Term::Part(first)), (B, Term::Part(second))], of)
    }

    pub fn first(&mut self, part: usize, of: usize) -> usize {
        self.add(FIRST, &[(A, Term::Part(part))], of)
    }

    pub fn second(&mut self, part: usize, of: usize) -> usize {
        self.add(SECOND, &[(A, Term::Part(part))], of)
    }

    pub fn bind(&mut self, defining: usize, body: usize) -> usize {
        let of = self.nodes[body].of;
        self.add(LET, &[(A, Term::Part(defining)), (B, Term::Part(body))], of)
    }

    pub fn feedback(&mut self, name: usize, defining: usize, body: usize) -> usize {
        let of = self.nodes[body].of;
        let words = [(A, Term::Type(name)), (B, Term::Part(defining)), (C, Term::Part(body))];
        self.add(FEEDBACK, &words, of)
    }

    pub fn choice(&mut self, tested: usize, pattern: usize, then: usize, other: usize) -> usize {
        let of = self.nodes[then].of;
        let part = Term::Part;
        let words = [(A, part(tested)), (B, part(then)), (C, part(other)), (D, part(pattern))];
        self.add(IF, &words, of)
    }

    pub fn delay(&mut self, of: usize, leaf: usize, part: usize) -> usize {
        let words = [(A, Term::Type(of)), (B, Term::Part(leaf)), (C, Term::Part(part))];
        self.add(DELAY, &words, of)
    }

    // Patterns; the next alternative is set apart.

    pub fn whole(&mut self, of: usize) -> usize {
        self.add(WHOLE, &[(A, Term::Type(of))], of)
    }

    pub fn constructor(&mut self, of: usize, number: u16) -> usize {
        self.add(CONSTRUCTOR, &[(A, Term::Type(of)), (B, Term::Number(number))], of)
    }

    pub fn pair_pattern(&mut self, first: usize, second: usize, of: usize) -> usize {
        self.add(PAIR_PATTERN, &[(A, Term::Part(first)), (B, Term::Part(second))], of)
    }

    /// Chains alternatives; the first of them.
    pub fn alternatives(&mut self, patterns: &[usize]) -> usize {
        for two in patterns.windows(2) {
            self.nodes[two[0]].words[NEXT] = Term::Part(two[1]);
        }
        patterns[0]
    }
}
