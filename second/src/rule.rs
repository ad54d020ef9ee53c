//! What an undecided IF gives: the two rules, and the one in force.

use crate::values::Value;

#[derive(Clone, Copy, PartialEq, Eq, Debug)]
pub enum Rule {
    /// Undefined in every leaf.
    Earlier,
    /// Each leaf on which both branches agree, undefined elsewhere.
    Agreed,
}

/// The rule that outputs, next sheets and the meaning of a text go by.
pub const IN_FORCE: Rule = Rule::Agreed;

impl Rule {
    /// The value of an undecided IF from those of its branches.
    pub fn undecided(self, then: &[u8], other: &[u8]) -> Value {
        let leaf = |v: u8, w: u8| match self {
            Rule::Agreed if v == w => v,
            _ => 0,
        };
        then.iter().zip(other).map(|(v, w)| leaf(*v, *w)).collect()
    }
}
