//! The delays of a circuit: what each is called, and what it holds.

use second::records::{bytes, read, Record, A, B, D, DELAY, KIND, LEAF, NEXT};
use second::text::syntax::{Expression, Syntax};

use crate::archive;
use crate::circuit::Circuit;
use crate::layout::Node;

/// A delay of a sheet.
#[derive(Clone, PartialEq, Eq, Debug)]
pub struct Delay {
    pub record: usize,
    pub of: usize,
    /// The records of its leaves.
    pub leaves: Vec<usize>,
    /// By the names around it; by its label or record for a sheet.
    pub name: String,
}

impl Delay {
    /// What it holds in a sheet.
    pub fn held(&self, sheet: &[u8]) -> Vec<u8> {
        self.leaves.iter().map(|leaf| sheet[12 * leaf + 2 * A]).collect()
    }
}

/// The delays of an accepted circuit, in the order of its records.
pub fn delays(circuit: &Circuit) -> Vec<Delay> {
    let names = match &circuit.layout {
        Some(layout) => names_around(&layout.syntax),
        None => Vec::new(),
    };
    let mut found: Vec<Delay> = Vec::new();
    for (number, record) in circuit.records.iter().enumerate() {
        if record[KIND] != DELAY {
            continue;
        }
        let around = match circuit.layout.as_ref().map(|layout| layout.nodes[number]) {
            Some(Node::Expression(expression)) => names[expression].clone(),
            _ if record[D] != 0 => format!("label{}", record[D]),
            _ => format!("record{number}"),
        };
        let before = found.iter().filter(|delay| base(&delay.name) == around).count();
        let name = if before == 0 { around } else { format!("{around}#{}", before + 1) };
        let leaves = leaf_records(&circuit.records, number);
        found.push(Delay { record: number, of: usize::from(record[A]), leaves, name });
    }
    found
}

/// A delay's name without its number.
fn base(name: &str) -> &str {
    name.split('#').next().unwrap_or(name)
}

/// The records of a delay's or a constant's leaves.
pub fn leaf_records(records: &[Record], number: usize) -> Vec<usize> {
    let first = usize::from(records[number][B]);
    std::iter::successors(Some(first), |leaf| {
        Some(usize::from(records[*leaf][NEXT])).filter(|next| *next != 0)
    })
    .collect()
}

/// For each expression the names of the LETs in whose defining parts it lies,
/// the outermost first; `output` where there are none.
fn names_around(syntax: &Syntax) -> Vec<String> {
    let mut around = vec![String::new(); syntax.expressions.len()];
    // A part has a lower number than its whole.
    for number in (0..syntax.expressions.len()).rev() {
        let own = around[number].clone();
        let inside = |name: &str| match own.as_str() {
            "" => name.to_string(),
            own => format!("{own}.{name}"),
        };
        let parts: Vec<(usize, String)> = match &syntax.expressions[number] {
            Expression::Name(_) | Expression::Undefined(_) => Vec::new(),
            Expression::Pair(first, second) => vec![(*first, own.clone()), (*second, own.clone())],
            Expression::First(part) | Expression::Second(part) => vec![(*part, own.clone())],
            Expression::Let { name, defining, body }
            | Expression::Feedback { name, defining, body, .. } => {
                vec![(*defining, inside(&name.letters)), (*body, own.clone())]
            }
            Expression::If { tested, then, other, .. } => {
                [tested, then, other].map(|part| (*part, own.clone())).to_vec()
            }
            Expression::Delay { part, .. } => vec![(*part, own.clone())],
        };
        for (part, name) in parts {
            around[part] = name;
        }
    }
    for name in &mut around {
        if name.is_empty() {
            *name = "output".to_string();
        }
    }
    around
}

/// Whether a sheet is a circuit in some state: all but the leaves and labels of
/// its delays is the same, and the check accepts it.
pub fn is_state_of(sheet: &[u8], circuit: &Circuit) -> bool {
    if sheet.len() != circuit.sheet.len() {
        return false;
    }
    let mut records = read(sheet);
    for delay in delays(circuit) {
        records[delay.record][D] = circuit.records[delay.record][D];
        for leaf in delay.leaves {
            if records[leaf][KIND] == LEAF {
                records[leaf][A] = circuit.records[leaf][A];
            }
        }
    }
    bytes(&records) == circuit.sheet && archive::check(sheet) == circuit.check()
}
