//! What stands in a text whose run is compared with its meaning.

use super::tally;
use crate::text::syntax::{Alternative, Constant, Expression, Syntax};

/// The features that a text has, by the names of their counts. It does not
/// nest deeply.
pub fn features(syntax: &Syntax) -> Vec<&'static str> {
    let is = |found: bool, name: &'static str| found.then_some(name);
    let expressions = || syntax.expressions.iter();
    let part = |number: usize| {
        matches!(syntax.expressions[number], Expression::First(_) | Expression::Second(_))
    };
    let feedback = |e: &Expression| matches!(e, Expression::Feedback { .. });
    let held_pair = |e: &Expression| match e {
        Expression::Delay { constant, .. } => {
            matches!(syntax.constants[*constant], Constant::Pair(..))
        }
        _ => false,
    };
    let part_of_part = |e: &Expression| match e {
        Expression::First(of) | Expression::Second(of) => part(*of),
        _ => false,
    };
    let chain_in_pair = |a: &Alternative| match a {
        Alternative::Pair(first, second) => first.len() > 1 || second.len() > 1,
        Alternative::Name(_) => false,
    };
    let found = [
        is(hides(syntax, syntax.root(), &mut Vec::new()), tally::RUN_HIDDEN),
        is(expressions().any(feedback), tally::RUN_FEEDBACK),
        is(expressions().any(held_pair), tally::RUN_HELD_PAIR),
        is(expressions().any(part_of_part), tally::RUN_PARTS),
        is(syntax.alternatives.iter().any(chain_in_pair), tally::RUN_CHAIN),
    ];
    found.into_iter().flatten().collect()
}

/// Whether a LET in an expression takes the name of a LET around it.
fn hides<'a>(syntax: &'a Syntax, number: usize, scope: &mut Vec<&'a str>) -> bool {
    let all = |parts: &[usize], scope: &mut Vec<&'a str>| {
        parts.iter().any(|part| hides(syntax, *part, scope))
    };
    match &syntax.expressions[number] {
        Expression::Name(_) | Expression::Undefined(_) => false,
        Expression::Pair(first, second) => all(&[*first, *second], scope),
        Expression::First(of) | Expression::Second(of) => all(&[*of], scope),
        Expression::If { tested, then, other, .. } => all(&[*tested, *then, *other], scope),
        Expression::Delay { part, .. } => all(&[*part], scope),
        Expression::Let { name, defining, body }
        | Expression::Feedback { name, defining, body, .. } => {
            if scope.contains(&name.letters.as_str()) || all(&[*defining], scope) {
                return true;
            }
            scope.push(&name.letters);
            let found = all(&[*body], scope);
            scope.pop();
            found
        }
    }
}
