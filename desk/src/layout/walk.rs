//! Goes through a text in the order of its records.

use second::records::{
    Record, A, B, C, CONSTANT, CONSTRUCTOR, D, DELAY, FEEDBACK, FIRST, FLAT, HEADER, IF, KIND,
    LEAF, LET, NAME, NEXT, PAIR, PAIR_PATTERN, PAIR_TYPE, SECOND, WHOLE,
};
use second::text::constants;
use second::text::naming::{Meant, Names};
use second::text::syntax::{Alternative, Constant, Definition, Expression, Name, Syntax};

/// What a record comes from, by the numbers of the syntax.
#[derive(Clone, Copy, PartialEq, Eq, Debug)]
pub enum Node {
    Header,
    /// The declaration with this number, from 0.
    Type(usize),
    Expression(usize),
    /// A leaf of the constant of a DELAY.
    Constant(usize),
    Alternative(usize),
}

/// A part still to be laid out, and the record and word that name it.
#[derive(Clone, Copy)]
enum Part {
    Expression {
        number: usize,
        record: usize,
        word: usize,
    },
    /// The alternatives of a pattern, from one of them on.
    Chain {
        owner: Owner,
        from: usize,
        record: usize,
        word: usize,
    },
}

/// Whose pattern a chain is: that of an IF, or a part of a pair pattern.
#[derive(Clone, Copy)]
enum Owner {
    If(usize),
    First(usize),
    Second(usize),
}

pub struct Walk<'a> {
    syntax: &'a Syntax,
    names: &'a Names,
    constant_types: Vec<Option<usize>>,
    widths: Vec<usize>,
    records: Vec<Record>,
    nodes: Vec<Node>,
    open: Vec<Part>,
}

/// The most leaves of an undefined constant.
const MOST_LEAVES: usize = 64;

impl<'a> Walk<'a> {
    /// Nothing is laid out yet.
    pub fn new(syntax: &'a Syntax, names: &'a Names) -> Walk<'a> {
        Walk {
            syntax,
            names,
            constant_types: constants::types(constants::TAKEN, syntax, names),
            widths: Vec::new(),
            records: Vec::new(),
            nodes: Vec::new(),
            open: Vec::new(),
        }
    }

    /// All records, and what each comes from.
    pub fn all(mut self) -> (Vec<Record>, Vec<Node>) {
        self.declarations();
        self.expressions();
        (self.records, self.nodes)
    }

    /// A new record that a word of another names.
    fn push(&mut self, kind: u16, node: Node, record: usize, word: usize) -> usize {
        let number = self.records.len();
        self.records[record][word] = number as u16;
        let mut new = [0; 6];
        new[KIND] = kind;
        self.records.push(new);
        self.nodes.push(node);
        number
    }

    fn type_of(&self, name: &Name) -> usize {
        self.names.types.get(&name.letters).copied().unwrap_or(0)
    }

    fn declarations(&mut self) {
        let syntax = self.syntax;
        let mut header = [0; 6];
        header[KIND] = HEADER;
        header[A] = self.type_of(&syntax.input) as u16;
        self.records.push(header);
        self.nodes.push(Node::Header);
        self.widths.push(0);
        for (number, declaration) in syntax.declarations.iter().enumerate() {
            match &declaration.definition {
                Definition::Flat(constructors) => {
                    let record = self.push(FLAT, Node::Type(number), number, NEXT);
                    self.records[record][A] = constructors.len() as u16;
                    self.widths.push(1);
                }
                Definition::Pair(first, second) => {
                    let record = self.push(PAIR_TYPE, Node::Type(number), number, NEXT);
                    let (first, second) = (self.type_of(first), self.type_of(second));
                    self.records[record][A] = first as u16;
                    self.records[record][B] = second as u16;
                    let width = self.widths[first] + self.widths[second];
                    self.widths.push(width.min(MOST_LEAVES));
                }
            }
        }
    }

    fn expressions(&mut self) {
        self.open.push(Part::Expression { number: self.syntax.root(), record: 0, word: B });
        while let Some(part) = self.open.pop() {
            match part {
                Part::Expression { number, record, word } => self.expression(number, record, word),
                Part::Chain { owner, from, record, word } => self.chain(owner, from, record, word),
            }
        }
        self.records[0][C] = self.records.len() as u16;
    }

    /// The parts of a record, each with the word that names it, in their order.
    fn parts(&mut self, record: usize, parts: &[(usize, usize)]) {
        for &(word, number) in parts.iter().rev() {
            self.open.push(Part::Expression { number, record, word });
        }
    }

    fn expression(&mut self, number: usize, record: usize, word: usize) {
        let node = Node::Expression(number);
        let syntax = self.syntax;
        match &syntax.expressions[number] {
            Expression::Name(_) => self.name(number, record, word),
            Expression::Undefined(name) => {
                let of = self.type_of(name);
                self.constant(of, &vec![0; self.widths[of]], node, record, word);
            }
            Expression::Pair(first, second) => {
                let new = self.push(PAIR, node, record, word);
                self.parts(new, &[(A, *first), (B, *second)]);
            }
            Expression::First(part) | Expression::Second(part) => {
                let first = matches!(&syntax.expressions[number], Expression::First(_));
                let new = self.push(if first { FIRST } else { SECOND }, node, record, word);
                self.parts(new, &[(A, *part)]);
            }
            Expression::Let { defining, body, .. } => {
                let new = self.push(LET, node, record, word);
                self.parts(new, &[(A, *defining), (B, *body)]);
            }
            Expression::Feedback { of, defining, body, .. } => {
                let new = self.push(FEEDBACK, node, record, word);
                self.records[new][A] = self.type_of(of) as u16;
                self.parts(new, &[(B, *defining), (C, *body)]);
            }
            Expression::If { tested, then, other, .. } => {
                let new = self.push(IF, node, record, word);
                let owner = Owner::If(number);
                self.open.push(Part::Chain { owner, from: 0, record: new, word: D });
                self.parts(new, &[(A, *tested), (B, *then), (C, *other)]);
            }
            Expression::Delay { constant, part } => {
                let new = self.push(DELAY, node, record, word);
                self.records[new][A] = self.constant_types[*constant].unwrap_or(0) as u16;
                let leaves = self.held(*constant);
                self.leaves(new, &leaves);
                self.parts(new, &[(C, *part)]);
            }
        }
    }

    fn name(&mut self, number: usize, record: usize, word: usize) {
        let node = Node::Expression(number);
        match self.names.meant[number] {
            Some(Meant::Constructor(constructor)) => {
                self.constant(constructor.of, &[constructor.number], node, record, word);
            }
            meant => {
                let new = self.push(NAME, node, record, word);
                if let Some(Meant::Distance(distance)) = meant {
                    self.records[new][A] = distance as u16;
                }
            }
        }
    }

    fn constant(&mut self, of: usize, leaves: &[usize], node: Node, record: usize, word: usize) {
        let new = self.push(CONSTANT, node, record, word);
        self.records[new][A] = of as u16;
        let leaves: Vec<(usize, Node)> = leaves.iter().map(|leaf| (*leaf, node)).collect();
        self.leaves(new, &leaves);
    }

    /// The chain of leaves that a record's word b begins.
    fn leaves(&mut self, record: usize, leaves: &[(usize, Node)]) {
        let (mut named_by, mut word) = (record, B);
        for (value, node) in leaves {
            named_by = self.push(LEAF, *node, named_by, word);
            self.records[named_by][A] = *value as u16;
            word = NEXT;
        }
    }

    /// The leaves of a DELAY's constant, each with the constant it is from.
    fn held(&self, constant: usize) -> Vec<(usize, Node)> {
        let mut leaves = Vec::new();
        let mut open = vec![constant];
        while let Some(number) = open.pop() {
            let node = Node::Constant(number);
            match &self.syntax.constants[number] {
                Constant::Constructor(name) => {
                    let constructor = self.names.constructors.get(&name.letters);
                    leaves.push((constructor.map_or(0, |c| c.number), node));
                }
                Constant::Undefined(name) => {
                    let width = self.widths[self.type_of(name)];
                    leaves.extend(std::iter::repeat_n((0, node), width));
                }
                Constant::Pair(first, second, _) => open.extend([*second, *first]),
            }
        }
        leaves
    }

    /// The alternatives of a pattern.
    fn alternatives(&self, owner: Owner) -> &'a [usize] {
        let syntax = self.syntax;
        match owner {
            Owner::If(number) => match &syntax.expressions[number] {
                Expression::If { pattern, .. } => pattern,
                _ => &[],
            },
            Owner::First(number) | Owner::Second(number) => match &syntax.alternatives[number] {
                Alternative::Pair(first, _) if matches!(owner, Owner::First(_)) => first,
                Alternative::Pair(_, second) => second,
                Alternative::Name(_) => &[],
            },
        }
    }

    /// An alternative with its parts; those after it in the chain come then.
    fn chain(&mut self, owner: Owner, from: usize, record: usize, word: usize) {
        let Some(&number) = self.alternatives(owner).get(from) else { return };
        let node = Node::Alternative(number);
        let new = match &self.syntax.alternatives[number] {
            Alternative::Name(name) => match self.names.constructors.get(&name.letters).copied() {
                Some(constructor) => {
                    let new = self.push(CONSTRUCTOR, node, record, word);
                    self.records[new][A] = constructor.of as u16;
                    self.records[new][B] = constructor.number as u16;
                    new
                }
                None => {
                    let new = self.push(WHOLE, node, record, word);
                    self.records[new][A] = self.type_of(name) as u16;
                    new
                }
            },
            Alternative::Pair(..) => self.push(PAIR_PATTERN, node, record, word),
        };
        self.open.push(Part::Chain { owner, from: from + 1, record: new, word: NEXT });
        if let Alternative::Pair(..) = &self.syntax.alternatives[number] {
            let (first, second) = (Owner::First(number), Owner::Second(number));
            self.open.push(Part::Chain { owner: second, from: 0, record: new, word: B });
            self.open.push(Part::Chain { owner: first, from: 0, record: new, word: A });
        }
    }
}
