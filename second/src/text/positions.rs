//! The places in the grammar that a text can come to.

use std::collections::BTreeSet;

use super::grammar::{grammar, Item, Symbol};

/// A place in the grammar: the phrase that may be left out, if one may come
/// next, and what has to come then; none is the end of the text.
#[derive(Clone, Copy, PartialEq, Eq, PartialOrd, Ord, Debug)]
pub struct Position {
    pub optional: Option<Item>,
    pub needed: Option<Item>,
}

impl Position {
    /// The position before some symbols still to come.
    pub fn of(to_come: impl Iterator<Item = Item>) -> Position {
        let mut position = Position { optional: None, needed: None };
        for item in to_come {
            let symbol = grammar().symbol(item);
            if !grammar().can_be_empty(symbol) {
                position.needed = Some(item);
                break;
            }
            if matches!(symbol, Symbol::Phrase(_)) {
                position.optional.get_or_insert(item);
            }
        }
        position
    }

    /// The rules, each with a point before what comes next.
    pub fn words(&self) -> String {
        let rule = |item: Item| {
            let rule = &grammar().rules[item.rule];
            let before = rule.symbols[..item.at].iter();
            let pieces = before.filter(|s| matches!(s, Symbol::Complete(_))).count();
            let (read, to_come) = rule.words.split_at(2 + item.at - pieces);
            format!("{} . {}", read.join(" "), to_come.join(" "))
        };
        let needed = self.needed.map_or("the end".to_string(), rule);
        match self.optional {
            Some(optional) => format!("{}, then {needed}", rule(optional)),
            None => needed,
        }
    }
}

/// Every position, in order.
pub fn positions() -> Vec<Position> {
    let mut found = BTreeSet::new();
    let start = Item { rule: 0, at: 0 };
    found.insert(Position { optional: None, needed: Some(start) });
    for (rule, words) in grammar().rules.iter().enumerate() {
        for at in 0..words.symbols.len() {
            if matches!(words.symbols[at], Symbol::Token(_)) {
                let mut seen = BTreeSet::new();
                after(Item { rule, at }, None, &mut seen, &mut found);
            }
        }
    }
    found.into_iter().collect()
}

/// The positions after a symbol of a rule, whatever phrases the rule stands in.
fn after(
    item: Item,
    optional: Option<Item>,
    seen: &mut BTreeSet<(Item, Option<Item>)>,
    found: &mut BTreeSet<Position>,
) {
    if !seen.insert((item, optional)) {
        return;
    }
    let rule = &grammar().rules[item.rule];
    let rest = (item.at + 1..rule.symbols.len()).map(|at| Item { rule: item.rule, at });
    let position = Position::of(rest);
    let optional = optional.or(position.optional);
    if position.needed.is_some() {
        found.insert(Position { optional, needed: position.needed });
        return;
    }
    if item.rule == 0 {
        found.insert(Position { optional, needed: None });
    }
    for (number, holder) in grammar().rules.iter().enumerate() {
        for at in 0..holder.symbols.len() {
            if holder.symbols[at] == Symbol::Phrase(rule.phrase) {
                after(Item { rule: number, at }, optional, seen, found);
            }
        }
    }
}
