//! The types of the constants of DELAYs: code 14 where no name is bad.

use std::collections::HashMap;

use super::naming::Names;
use super::syntax::{Constant, Definition, Expression, Syntax};

/// Which of two pair types with the same parts is taken, of which the first
/// was declared before the second: a comparison can replace it to make a mistake.
pub type Taken = fn(usize, usize) -> usize;

pub const TAKEN: Taken = |first, _| first;

/// The type of each constant, if it has one.
pub fn types(taken: Taken, syntax: &Syntax, names: &Names) -> Vec<Option<usize>> {
    let pairs = pair_types(taken, syntax, names);
    let mut types: Vec<Option<usize>> = Vec::new();
    for constant in &syntax.constants {
        types.push(match constant {
            Constant::Constructor(name) => names.constructors.get(&name.letters).map(|c| c.of),
            Constant::Undefined(name) => names.types.get(&name.letters).copied(),
            Constant::Pair(first, second, _) => match (types[*first], types[*second]) {
                (Some(first), Some(second)) => pairs.get(&(first, second)).copied(),
                _ => None,
            },
        });
    }
    types
}

/// The type of each constant, or the place of the first pair without one.
pub fn all_types(taken: Taken, syntax: &Syntax, names: &Names) -> Result<Vec<usize>, usize> {
    let types = types(taken, syntax, names);
    // A pair over a part without a type has none, so the first place is that
    // of a whole constant.
    let places = syntax.expressions.iter().filter_map(|expression| match expression {
        Expression::Delay { constant, .. } if types[*constant].is_none() => {
            Some(place(&syntax.constants[*constant]))
        }
        _ => None,
    });
    match places.min() {
        Some(place) => Err(place),
        None => Ok(types.into_iter().flatten().collect()),
    }
}

/// The place of a constant's first byte but for `?`, which has a type.
fn place(constant: &Constant) -> usize {
    match constant {
        Constant::Constructor(name) | Constant::Undefined(name) => name.place,
        Constant::Pair(_, _, place) => *place,
    }
}

/// The pair type of each two parts.
fn pair_types(taken: Taken, syntax: &Syntax, names: &Names) -> HashMap<(usize, usize), usize> {
    let mut pairs: HashMap<(usize, usize), usize> = HashMap::new();
    for (before, declaration) in syntax.declarations.iter().enumerate() {
        if let Definition::Pair(first, second) = &declaration.definition {
            let parts = (names.types[&first.letters], names.types[&second.letters]);
            let number = before + 1;
            let of = pairs.entry(parts).or_insert(number);
            *of = taken(*of, number);
        }
    }
    pairs
}
