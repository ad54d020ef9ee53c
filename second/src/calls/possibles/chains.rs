//! The chains that the IFs of a call ask, those inside pair patterns too, and
//! what is notable about them.

use super::estimator::{Estimator, RULES};
use super::products::{of_products, part_by_part};
use super::sets::{self, alternatives, named_by_each, on_flat_type, said, Set, Sets};
use super::wrong_rules::apart;
use crate::accepted::Circuit;
use crate::matching::Match;
use crate::records::{A, B, D, IF, KIND, PAIR_PATTERN, WHOLE};

/// A chain and the sets that it is asked of.
pub struct Chain<'a> {
    circuit: &'a Circuit,
    pub first: u16,
    tested: Sets,
    /// Whether it is a part of a pair pattern.
    pub inside: bool,
    pub said: Match,
}

/// All chains that are asked in a cycle.
pub fn chains<'a>(circuit: &'a Circuit, input: &[u8]) -> Vec<Chain<'a>> {
    let mut estimator = Estimator::new(circuit, &RULES);
    estimator.outputs(input);
    let mut chains = Vec::new();
    for (record, tested) in circuit.records.iter().zip(estimator.tested) {
        let Some(tested) = tested.filter(|_| record[KIND] == IF) else { continue };
        let begun = chains.len();
        chains.push(Chain::of(circuit, record[D], tested, false));
        let mut next = begun;
        while next < chains.len() {
            let inside = chains[next].inside_it();
            chains.extend(inside);
            next += 1;
        }
    }
    chains
}

impl<'a> Chain<'a> {
    fn of(circuit: &'a Circuit, first: u16, tested: Sets, inside: bool) -> Chain<'a> {
        let said = said(circuit, first, &tested);
        Chain { circuit, first, tested, inside, said }
    }

    /// The chains that its pair patterns have as their parts.
    fn inside_it(&self) -> Vec<Chain<'a>> {
        let mut chains = Vec::new();
        for pattern in alternatives(self.circuit, self.first) {
            let record = self.circuit.records[usize::from(pattern)];
            if record[KIND] == PAIR_PATTERN {
                let width = self.circuit.width(usize::from(record[A]));
                let (first, second) = self.tested.split_at(width);
                chains.push(Chain::of(self.circuit, record[A], first.to_vec(), true));
                chains.push(Chain::of(self.circuit, record[B], second.to_vec(), true));
            }
        }
        chains
    }

    fn is_flat(&self) -> bool {
        on_flat_type(self.circuit, self.first)
    }

    /// How many of its alternatives are of a kind.
    fn alternatives_of(&self, kind: u16) -> usize {
        let kinds = alternatives(self.circuit, self.first);
        kinds.filter(|pattern| self.circuit.records[usize::from(*pattern)][KIND] == kind).count()
    }

    pub fn has_several(&self) -> bool {
        alternatives(self.circuit, self.first).nth(1).is_some()
    }

    /// On a flat type, what is possible and how many constructors the type has.
    fn possible(&self) -> Option<(Set, u8)> {
        let of = usize::from(self.circuit.typed.types[usize::from(self.first)]);
        self.is_flat().then(|| (self.tested[0], self.circuit.records[of][A] as u8))
    }

    /// On a flat type: yes, though no alternative by itself says so.
    pub fn is_yes_together(&self) -> bool {
        self.said == Match::Yes
            && self.possible().is_some_and(|(possible, _)| {
                let named = named_by_each(&sets::RULES, self.circuit, self.first);
                apart(possible, &named) != Match::Yes
            })
    }

    /// Of an undefined leaf: all of several constructors.
    pub fn is_of_undefined(&self) -> bool {
        self.possible().is_some_and(|(set, count)| count > 1 && set == Set::up_to(count))
    }

    /// Of a leaf that may be two constructors or more, but not all.
    pub fn is_of_some(&self) -> bool {
        self.possible().is_some_and(|(set, count)| (2..count).contains(&set.size()))
    }

    /// Of two pair patterns or more, and undecided.
    pub fn is_undecided_on_pairs(&self) -> bool {
        self.said == Match::Undecided && self.alternatives_of(PAIR_PATTERN) > 1
    }

    /// On a pair with an undefined leaf: a whole type among other alternatives.
    pub fn has_whole_pair(&self) -> bool {
        !self.is_flat()
            && self.has_several()
            && self.alternatives_of(WHOLE) > 0
            && self.tested.iter().any(|set| set.size() > 1)
    }

    /// On a pair: product sets, or alternatives joined part by part, say
    /// something else.
    pub fn differs_from_products(&self) -> bool {
        self.differs(of_products)
    }

    pub fn differs_from_joined_parts(&self) -> bool {
        self.differs(part_by_part)
    }

    fn differs(&self, other: fn(&sets::Rules, &Circuit, u16, &[Set]) -> Match) -> bool {
        !self.is_flat() && other(&sets::RULES, self.circuit, self.first, &self.tested) != self.said
    }
}
