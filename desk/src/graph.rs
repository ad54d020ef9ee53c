//! A circuit as a graph: what has a value is a node, and an edge leads from a
//! value to where it is used. A name is an edge, not a node.

use second::records::{
    A, B, C, CONSTANT, DELAY, FEEDBACK, FIRST, IF, KIND, LET, NAME, PAIR, SECOND,
};
use second::text::syntax::Expression;

use crate::circuit::{Accepted, Circuit};
use crate::layout::Node as Origin;
use crate::state::{delays, leaf_records};
use crate::types::Types;

#[derive(Clone, Copy, PartialEq, Eq, Debug)]
pub enum Kind {
    Input,
    Output,
    Constant,
    Part,
    Choice,
    Delay,
    Feedback,
}

#[derive(Clone, PartialEq, Eq, Debug)]
pub struct Node {
    pub kind: Kind,
    /// The lines that it shows.
    pub lines: Vec<String>,
    /// Where it stands in the text.
    pub place: String,
    /// The names that LETs give it.
    pub names: Vec<String>,
}

#[derive(Clone, PartialEq, Eq, Debug)]
pub struct Edge {
    pub from: usize,
    pub to: usize,
    pub label: &'static str,
    /// Whether it leads back to a feedback's name.
    pub back: bool,
}

#[derive(Default, Debug)]
pub struct Graph {
    pub nodes: Vec<Node>,
    pub edges: Vec<Edge>,
}

struct Walk<'a> {
    circuit: &'a Circuit,
    types: Types<'a>,
    graph: Graph,
    /// The nodes of the names in scope, the innermost last.
    scope: Vec<usize>,
    held: Vec<(usize, String)>,
}

/// The graph of an accepted circuit.
pub fn graph(accepted: &Accepted) -> Graph {
    let circuit = &accepted.circuit;
    let types = circuit.types();
    let held = delays(circuit)
        .into_iter()
        .map(|delay| (delay.record, types.value(delay.of, &delay.held(&circuit.sheet))))
        .collect();
    let mut walk = Walk { circuit, types, graph: Graph::default(), scope: Vec::new(), held };
    let input = walk.node(Kind::Input, vec!["input".to_string()], 0);
    walk.scope.push(input);
    let root = walk.value(usize::from(circuit.records[0][B]));
    let output = walk.node(Kind::Output, vec!["output".to_string()], 0);
    walk.edge(root, output, "");
    walk.graph
}

impl Walk<'_> {
    fn node(&mut self, kind: Kind, lines: Vec<String>, record: usize) -> usize {
        let place = match record {
            0 => String::new(),
            record => self.circuit.position(record),
        };
        self.graph.nodes.push(Node { kind, lines, place, names: Vec::new() });
        self.graph.nodes.len() - 1
    }

    fn edge(&mut self, from: usize, to: usize, label: &'static str) {
        self.graph.edges.push(Edge { from, to, label, back: false });
    }

    /// The name that a LET or a feedback binds.
    fn bound(&self, record: usize) -> String {
        let name = || {
            let layout = self.circuit.layout.as_ref()?;
            let Origin::Expression(number) = layout.nodes.get(record)? else { return None };
            match layout.syntax.expressions.get(*number)? {
                Expression::Let { name, .. } | Expression::Feedback { name, .. } => {
                    Some(name.letters.clone())
                }
                _ => None,
            }
        };
        name().unwrap_or_else(|| format!("name of {record}"))
    }

    fn value_within(&mut self, node: usize, record: usize) -> usize {
        self.scope.push(node);
        let value = self.value(record);
        self.scope.pop();
        value
    }

    /// The node of an expression's value.
    fn value(&mut self, number: usize) -> usize {
        let record = self.circuit.records[number];
        let word = |at: usize| usize::from(record[at]);
        match record[KIND] {
            CONSTANT => self.constant(number, word(A)),
            NAME => self.scope[self.scope.len() - 1 - word(A)],
            PAIR => {
                let (first, second) = (self.value(word(A)), self.value(word(B)));
                let pair = self.node(Kind::Part, vec!["( , )".to_string()], number);
                self.edge(first, pair, "1");
                self.edge(second, pair, "2");
                pair
            }
            FIRST | SECOND => {
                let whole = self.value(word(A));
                let index = if record[KIND] == FIRST { "[1]" } else { "[2]" };
                let part = self.node(Kind::Part, vec![index.to_string()], number);
                self.edge(whole, part, "");
                part
            }
            LET => {
                let (name, defining) = (self.bound(number), self.value(word(A)));
                self.graph.nodes[defining].names.push(name);
                self.value_within(defining, word(B))
            }
            FEEDBACK => self.feedback(number, word(B), word(C)),
            IF => self.choice(number, [word(A), word(B), word(C)]),
            DELAY => self.delay(number, word(C)),
            kind => self.node(Kind::Part, vec![format!("kind {kind}")], number),
        }
    }

    fn feedback(&mut self, number: usize, defining: usize, body: usize) -> usize {
        let name = self.bound(number);
        let node = self.node(Kind::Feedback, vec![name], number);
        let defining = self.value_within(node, defining);
        self.graph.edges.push(Edge { from: defining, to: node, label: "", back: true });
        self.value_within(node, body)
    }

    fn delay(&mut self, number: usize, part: usize) -> usize {
        let part = self.value(part);
        let held = self.held.iter().find(|(delay, _)| *delay == number);
        let held = held.map_or_else(String::new, |(_, value)| format!("holds {value}"));
        let delay = self.node(Kind::Delay, vec!["DELAY".to_string(), held], number);
        self.edge(part, delay, "");
        delay
    }

    fn constant(&mut self, number: usize, of: usize) -> usize {
        let records = &self.circuit.records;
        let leaves: Vec<u8> =
            leaf_records(records, number).iter().map(|leaf| records[*leaf][A] as u8).collect();
        let undefined = leaves.iter().all(|leaf| *leaf == 0);
        let shown = match self.types.name(of) {
            Some(name) if undefined => format!("?{name}"),
            _ => self.types.value(of, &leaves),
        };
        self.node(Kind::Constant, vec![shown], number)
    }

    fn choice(&mut self, number: usize, parts: [usize; 3]) -> usize {
        let [tested, then, other] = parts.map(|part| self.value(part));
        let mut pattern = crate::patterns::pattern(self.circuit, number);
        if pattern.chars().count() > 24 {
            pattern = pattern.chars().take(22).collect::<String>() + "..";
        }
        let lines = vec!["IF matches".to_string(), pattern];
        let node = self.node(Kind::Choice, lines, number);
        self.edge(tested, node, "tested");
        self.edge(then, node, "then");
        self.edge(other, node, "else");
        node
    }
}

impl Graph {
    /// The graph in the language of Graphviz.
    pub fn dot(&self, title: &str) -> String {
        let quoted = |text: &str| text.replace('\\', "\\\\").replace('"', "\\\"");
        let mut dot = format!("digraph \"{}\" {{\n", quoted(title));
        dot += "    rankdir=LR;\n    node [fontname=\"sans-serif\", fontsize=11];\n";
        dot += "    edge [fontname=\"sans-serif\", fontsize=9];\n";
        for (number, node) in self.nodes.iter().enumerate() {
            let shape = match node.kind {
                Kind::Input | Kind::Output => "shape=cds",
                Kind::Constant => "shape=plaintext",
                Kind::Part => "shape=box, style=rounded",
                Kind::Choice => "shape=box",
                Kind::Delay => "shape=box, peripheries=2",
                Kind::Feedback => "shape=ellipse",
            };
            let lines: Vec<String> = node.lines.iter().map(|line| quoted(line)).collect();
            let mut label = lines.join("\\n");
            if !node.names.is_empty() {
                label = format!("{} =\\n{label}", quoted(&node.names.join(" = ")));
            }
            let place = quoted(&node.place);
            dot += &format!("    n{number} [label=\"{label}\", tooltip=\"{place}\", {shape}];\n");
        }
        for edge in &self.edges {
            let back = if edge.back { ", constraint=false, style=dashed" } else { "" };
            let (from, to, label) = (edge.from, edge.to, edge.label);
            dot += &format!("    n{from} -> n{to} [label=\"{label}\"{back}];\n");
        }
        dot + "}\n"
    }
}
