//! Sets of constructors, and what a pattern says of a leaf that may be any of
//! a set: yes, no or undecided.

use crate::accepted::Circuit;
use crate::matching::{both, Match};
use crate::records::{A, B, CONSTRUCTOR, FLAT, KIND, NEXT, WHOLE};

/// Some constructors of a flat type: bit c is that of constructor c. There is
/// room for one constructor more than a sheet may have, and some others.
#[derive(Clone, Copy, PartialEq, Eq, Debug)]
pub struct Set(u128);

/// A value of which each leaf may be any of a set.
pub type Sets = Vec<Set>;

impl Set {
    pub const NONE: Set = Set(0);

    /// One constructor alone.
    pub fn only(constructor: u8) -> Set {
        Set(1 << constructor)
    }

    /// The constructors from 1 to a number.
    pub fn up_to(count: u8) -> Set {
        Set((2 << count) - 2)
    }

    /// What a leaf that holds a byte may be, of a type of so many constructors.
    pub fn begun(byte: u8, count: u8) -> Set {
        match byte {
            0 => Set::up_to(count),
            constructor => Set::only(constructor),
        }
    }

    pub fn joined(self, other: Set) -> Set {
        Set(self.0 | other.0)
    }

    pub fn common(self, other: Set) -> Set {
        Set(self.0 & other.0)
    }

    pub fn is_within(self, other: Set) -> bool {
        self.common(other) == self
    }

    pub fn holds(self, constructor: u8) -> bool {
        Set::only(constructor).is_within(self)
    }

    /// How many constructors are in it.
    pub fn size(self) -> u8 {
        self.0.count_ones() as u8
    }

    /// The constructors in it, the lowest first.
    pub fn constructors(self) -> impl Iterator<Item = u8> {
        let mut rest = self.0;
        std::iter::from_fn(move || {
            let lowest = (rest != 0).then_some(rest.trailing_zeros() as u8)?;
            rest &= rest - 1;
            Some(lowest)
        })
    }
}

/// What chains and pairs say: the rules that a comparison can replace to make
/// a mistake.
#[derive(Clone, Copy)]
pub struct Rules {
    /// A chain on a flat type, from what is possible and what each alternative
    /// names.
    pub flat: fn(Set, &[Set]) -> Match,
    /// What a whole type of so many constructors names.
    pub named: fn(u8) -> Set,
    /// A chain on a pair type.
    pub pairs: fn(&Rules, &Circuit, u16, &[Set]) -> Match,
    /// A whole type on a pair type.
    pub whole: fn(&[Set]) -> Match,
    pub pair: fn(Match, Match) -> Match,
    /// A chain on a pair type, from what each alternative says.
    pub chain: fn(&[Match]) -> Match,
}

pub const RULES: Rules = Rules {
    flat: joined_first,
    named: Set::up_to,
    pairs: one_by_one,
    whole: |_| Match::Yes,
    pair: both,
    chain: any_of,
};

/// What the chain of an IF says of the sets that it tests.
pub fn said(circuit: &Circuit, first: u16, tested: &[Set]) -> Match {
    said_by(&RULES, circuit, first, tested)
}

/// What a chain says by some rules.
pub fn said_by(rules: &Rules, circuit: &Circuit, first: u16, tested: &[Set]) -> Match {
    if on_flat_type(circuit, first) {
        (rules.flat)(tested[0], &named_by_each(rules, circuit, first))
    } else {
        (rules.pairs)(rules, circuit, first, tested)
    }
}

/// Whether the type that a pattern tests is flat.
pub fn on_flat_type(circuit: &Circuit, pattern: u16) -> bool {
    let tested = circuit.typed.types[usize::from(pattern)];
    circuit.records[usize::from(tested)][KIND] == FLAT
}

/// The alternatives of a chain, in order.
pub fn alternatives(circuit: &Circuit, first: u16) -> impl Iterator<Item = u16> + '_ {
    let next = |pattern: &u16| Some(circuit.records[usize::from(*pattern)][NEXT]);
    std::iter::successors(Some(first), next).take_while(|pattern| *pattern != 0)
}

/// What each alternative of a chain on a flat type names.
pub fn named_by_each(rules: &Rules, circuit: &Circuit, first: u16) -> Vec<Set> {
    alternatives(circuit, first).map(|pattern| named(rules, circuit, pattern)).collect()
}

/// What one alternative on a flat type names.
pub fn named(rules: &Rules, circuit: &Circuit, pattern: u16) -> Set {
    let record = circuit.records[usize::from(pattern)];
    match record[KIND] {
        CONSTRUCTOR => Set::only(record[B] as u8),
        _ => (rules.named)(circuit.records[usize::from(record[A])][A] as u8),
    }
}

/// Yes if the alternatives together name every possible constructor, no if they
/// name none of them.
pub fn joined_first(possible: Set, named: &[Set]) -> Match {
    let named = named.iter().copied().fold(Set::NONE, Set::joined);
    if possible.is_within(named) {
        Match::Yes
    } else if possible.common(named) == Set::NONE {
        Match::No
    } else {
        Match::Undecided
    }
}

/// A chain on a pair type: what its alternatives say, each by itself.
pub fn one_by_one(rules: &Rules, circuit: &Circuit, first: u16, tested: &[Set]) -> Match {
    let said = alternatives(circuit, first).map(|p| alternative(rules, circuit, p, tested));
    (rules.chain)(&said.collect::<Vec<Match>>())
}

/// One alternative on a pair type. The parts of a pair pattern are chains.
fn alternative(rules: &Rules, circuit: &Circuit, pattern: u16, tested: &[Set]) -> Match {
    let record = circuit.records[usize::from(pattern)];
    if record[KIND] == WHOLE {
        return (rules.whole)(tested);
    }
    let (first, second) = tested.split_at(circuit.width(usize::from(record[A])));
    let first = said_by(rules, circuit, record[A], first);
    let second = said_by(rules, circuit, record[B], second);
    (rules.pair)(first, second)
}

/// Yes if some alternative says yes, no if all say no.
pub fn any_of(said: &[Match]) -> Match {
    if said.contains(&Match::Yes) {
        Match::Yes
    } else if said.iter().all(|said| *said == Match::No) {
        Match::No
    } else {
        Match::Undecided
    }
}
