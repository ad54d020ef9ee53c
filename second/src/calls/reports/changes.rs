//! Changes: where an output leaf has another value than in the cycle before.

/// The outputs of a run: the leaves of each cycle after those of the cycle
/// before.
#[derive(Clone, PartialEq, Eq, Debug)]
pub struct OutputRecord {
    pub outputs: Vec<u8>,
    /// How many leaves each cycle has, at least one.
    pub leaves: usize,
}

impl OutputRecord {
    pub fn cycles(&self) -> usize {
        self.outputs.len() / self.leaves
    }

    /// The value of a leaf in a cycle.
    pub fn value(&self, cycle: usize, leaf: usize) -> u8 {
        self.outputs[cycle * self.leaves + leaf]
    }
}

/// A cycle and a leaf at which a change stands, both counted from 0.
#[derive(Clone, Copy, PartialEq, Eq, Debug)]
pub struct Change {
    pub cycle: usize,
    pub leaf: usize,
}

/// The rules that a comparison can replace to make a mistake.
#[derive(Clone, Copy)]
pub struct Rules {
    /// The value that a leaf in a cycle is compared with, if there is one.
    pub before: fn(&OutputRecord, Change) -> Option<u8>,
    /// Whether two values differ.
    pub differ: fn(before: u8, now: u8) -> bool,
    /// How many there are, of all changes in the order of the record.
    pub many: fn(&[Change]) -> usize,
}

/// 0 is a value like any other.
pub const RULES: Rules =
    Rules { before, differ: |before, now| before != now, many: |changes| changes.len() };

/// That of the leaf in the cycle before; none in the first.
pub fn before(record: &OutputRecord, Change { cycle, leaf }: Change) -> Option<u8> {
    cycle.checked_sub(1).map(|before| record.value(before, leaf))
}

/// Whether a change stands at a cycle and a leaf.
fn stands(rules: &Rules, record: &OutputRecord, at: Change) -> bool {
    let now = record.value(at.cycle, at.leaf);
    (rules.before)(record, at).is_some_and(|before| (rules.differ)(before, now))
}

/// How many cycles have a change at a leaf.
pub fn changes_of(rules: &Rules, record: &OutputRecord, leaf: usize) -> usize {
    (0..record.cycles()).filter(|&cycle| stands(rules, record, Change { cycle, leaf })).count()
}

/// Every change of a record, cycle by cycle, and in each the lowest leaf first.
pub fn all_changes(rules: &Rules, record: &OutputRecord) -> Vec<Change> {
    let mut changes = Vec::new();
    for cycle in 0..record.cycles() {
        for leaf in 0..record.leaves {
            let at = Change { cycle, leaf };
            if stands(rules, record, at) {
                changes.push(at);
            }
        }
    }
    changes
}

/// The total, counted over the record and not from the leaves' numbers.
pub fn total(rules: &Rules, record: &OutputRecord) -> usize {
    (rules.many)(&all_changes(rules, record))
}
