//! Matching a value with a pattern: yes, no or undecided.

use crate::accepted::Circuit;
use crate::records::{A, B, CONSTRUCTOR, KIND, NEXT, WHOLE};

#[derive(Clone, Copy, PartialEq, Eq, Debug)]
pub enum Match {
    Yes,
    No,
    Undecided,
}

/// What chains and pairs say from what their parts say: the rules that a
/// comparison can replace to make a mistake.
#[derive(Clone, Copy)]
pub struct Rules {
    /// A chain of which no alternative says yes, but some may be undecided.
    pub none: fn(Match) -> Match,
    pub pair: fn(Match, Match) -> Match,
}

pub const RULES: Rules = Rules { none: |said| said, pair: both };

/// A chain: yes if some alternative says yes, no if all say no.
pub fn chain(circuit: &Circuit, first: u16, value: &[u8]) -> Match {
    chain_by(&RULES, circuit, first, value)
}

/// A chain by some rules.
pub fn chain_by(rules: &Rules, circuit: &Circuit, first: u16, value: &[u8]) -> Match {
    let mut found = Match::No;
    let mut pattern = usize::from(first);
    while pattern != 0 {
        match alternative(rules, circuit, pattern, value) {
            Match::Yes => return Match::Yes,
            Match::Undecided => found = Match::Undecided,
            Match::No => {}
        }
        pattern = usize::from(circuit.records[pattern][NEXT]);
    }
    (rules.none)(found)
}

/// The alternatives of a chain, in order, and what each of them says.
pub fn said_by_each(circuit: &Circuit, first: u16, value: &[u8]) -> Vec<(u16, Match)> {
    let next = |&pattern: &u16| Some(circuit.records[usize::from(pattern)][NEXT]);
    let patterns = std::iter::successors(Some(first), next).take_while(|&pattern| pattern != 0);
    patterns.map(|p| (p, alternative(&RULES, circuit, usize::from(p), value))).collect()
}

/// One alternative. The parts of a pair pattern are chains, and nest no
/// deeper than the type.
fn alternative(rules: &Rules, circuit: &Circuit, number: usize, value: &[u8]) -> Match {
    let record = circuit.records[number];
    match record[KIND] {
        WHOLE => Match::Yes,
        CONSTRUCTOR => match value[0] {
            0 => Match::Undecided,
            byte if u16::from(byte) == record[B] => Match::Yes,
            _ => Match::No,
        },
        _ => {
            let (first, second) = value.split_at(circuit.width(usize::from(record[A])));
            let first = chain_by(rules, circuit, record[A], first);
            let second = chain_by(rules, circuit, record[B], second);
            (rules.pair)(first, second)
        }
    }
}

/// A pair: no if either part says no, yes if both say yes.
pub fn both(first: Match, second: Match) -> Match {
    let either = |said: Match| first == said || second == said;
    if either(Match::No) {
        Match::No
    } else if either(Match::Undecided) {
        Match::Undecided
    } else {
        Match::Yes
    }
}
