//! What is allowed and most likely not meant: a REC that no DELAY breaks, a LET
//! that is not used, an alternative that can never fire, a cycle that may take
//! long.

use second::records::{
    expression_parts, A, B, C, CONSTRUCTOR, D, DELAY, FEEDBACK, IF, KIND, LET, NAME, NEXT, WHOLE,
};
use second::text::syntax::Expression;

use crate::circuit::{Accepted, Circuit};
use crate::layout::Node;
use crate::message::{Kind, Message, Place};
use crate::patterns::alternative;
use crate::source::Piece;
use crate::types::Types;
use crate::wording::grouped;

/// From so many evaluations a cycle is called long.
const LONG: u64 = 10_000_000;

/// The most boxes into which patterns are taken apart.
const MOST_BOXES: usize = 512;

/// The warnings about an accepted circuit, in the order of its records.
pub fn warnings(accepted: &Accepted) -> Vec<Message> {
    let circuit = &accepted.circuit;
    let mut found = Vec::new();
    for (number, record) in circuit.records.iter().enumerate() {
        match record[KIND] {
            LET => found.extend(unused(circuit, number, &[record[B]])),
            FEEDBACK => {
                let unused = unused(circuit, number, &[record[B], record[C]]);
                let unbroken = || unbroken(circuit, number, usize::from(record[B]));
                found.extend(unused.or_else(unbroken));
            }
            IF => found.extend(never(circuit, usize::from(record[D]))),
            _ => {}
        }
    }
    found.extend(long(circuit));
    found
}

/// A warning at the name that a LET binds.
fn at_name(circuit: &Circuit, number: usize, sentence: impl Fn(&str) -> String) -> Message {
    let bound = || {
        let layout = circuit.layout.as_ref()?;
        let Node::Expression(number) = layout.nodes.get(number)? else { return None };
        match layout.syntax.expressions.get(*number)? {
            Expression::Let { name, .. } | Expression::Feedback { name, .. } => Some(name),
            _ => None,
        }
    };
    match bound() {
        Some(name) => {
            let piece = Piece::new(name.place, name.place + name.letters.len());
            Message::new(Kind::Warning, Place::of(piece), sentence(&format!("`{}`", name.letters)))
        }
        None => Message::new(Kind::Warning, circuit.place(number), sentence("its name")),
    }
}

/// A name that stands in none of the parts where it is known.
fn unused(circuit: &Circuit, number: usize, parts: &[u16]) -> Option<Message> {
    let used = parts.iter().any(|part| uses(circuit, usize::from(*part), 0));
    (!used).then(|| at_name(circuit, number, |name| format!("{name} is not used")))
}

/// Whether an expression has the name at a distance.
fn uses(circuit: &Circuit, number: usize, distance: usize) -> bool {
    let record = &circuit.records[number];
    if record[KIND] == NAME {
        return usize::from(record[A]) == distance;
    }
    expression_parts(record).any(|(word, part)| {
        let binds = match record[KIND] {
            LET => word == B,
            FEEDBACK => true,
            _ => false,
        };
        uses(circuit, part, distance + usize::from(binds))
    })
}

/// A feedback whose value depends on itself in the same cycle.
fn unbroken(circuit: &Circuit, number: usize, defining: usize) -> Option<Message> {
    depends(circuit, defining, &mut vec![true]).then(|| {
        let rest = "in the same cycle: no DELAY breaks this REC";
        at_name(circuit, number, |name| format!("{name} depends on itself {rest}"))
    })
}

/// Whether an expression's value depends on a name in this cycle; `names` says
/// of those bound since then, the innermost last, whether theirs does.
fn depends(circuit: &Circuit, number: usize, names: &mut Vec<bool>) -> bool {
    let record = circuit.records[number];
    let part = |word: usize| usize::from(record[word]);
    let within = |names: &mut Vec<bool>, name: bool, number: usize| {
        names.push(name);
        let does = depends(circuit, number, names);
        names.pop();
        does
    };
    match record[KIND] {
        NAME => {
            let at = names.len().checked_sub(part(A) + 1);
            at.is_some_and(|at| names[at])
        }
        LET => {
            let defining = depends(circuit, part(A), names);
            within(names, defining, part(B))
        }
        FEEDBACK => {
            let defining = within(names, false, part(B));
            within(names, defining, part(C))
        }
        DELAY => false,
        _ => expression_parts(&record).any(|(_, part)| depends(circuit, part, names)),
    }
}

/// The values on which a pattern says yes: for each leaf those allowed, with 0
/// for undefined.
type Allowed = Vec<Vec<u16>>;

/// The first alternative of a chain that says yes only where one before it does.
fn never(circuit: &Circuit, first: usize) -> Option<Message> {
    let types = circuit.types();
    let mut before: Vec<Allowed> = Vec::new();
    let mut next = first;
    while next != 0 {
        let own = boxes_of(circuit, types, next)?;
        let mut rest = own.clone();
        for earlier in &before {
            rest = rest.into_iter().flat_map(|one| without(one, earlier)).collect();
            if rest.len() > MOST_BOXES {
                return None;
            }
        }
        if rest.is_empty() {
            let text = alternative(circuit, next);
            let sentence = format!("`{text}` can never fire: what stands before it says yes first");
            return Some(Message::new(Kind::Warning, circuit.place(next), sentence));
        }
        before.extend(own);
        next = usize::from(circuit.records[next][NEXT]);
    }
    None
}

/// The boxes of one alternative; none if there are too many.
fn boxes_of(circuit: &Circuit, types: Types, number: usize) -> Option<Vec<Allowed>> {
    let record = circuit.records[number];
    let of = usize::from(record[A]);
    match record[KIND] {
        WHOLE => {
            let leaves = types.leaves(of);
            Some(vec![leaves.iter().map(|of| (0..=types.count(*of) as u16).collect()).collect()])
        }
        CONSTRUCTOR => Some(vec![vec![vec![record[B]]]]),
        _ => {
            let chain = |first: u16| {
                let mut boxes = Vec::new();
                let mut next = usize::from(first);
                while next != 0 {
                    boxes.extend(boxes_of(circuit, types, next)?);
                    next = usize::from(circuit.records[next][NEXT]);
                }
                Some(boxes)
            };
            let (first, second) = (chain(record[A])?, chain(record[B])?);
            if first.len() * second.len() > MOST_BOXES {
                return None;
            }
            let pair = |one: &Allowed| {
                let one = one.clone();
                second.iter().map(move |two| [one.as_slice(), two].concat())
            };
            Some(first.iter().flat_map(pair).collect())
        }
    }
}

/// A box without another one, as boxes.
fn without(one: Allowed, other: &Allowed) -> Vec<Allowed> {
    let mut left = Vec::new();
    let mut inside = one;
    for (leaf, taken) in other.iter().enumerate() {
        let (common, rest): (Vec<u16>, Vec<u16>) =
            inside[leaf].iter().partition(|value| taken.contains(value));
        if !rest.is_empty() {
            let mut outside = inside.clone();
            outside[leaf] = rest;
            left.push(outside);
        }
        if common.is_empty() {
            return left;
        }
        inside[leaf] = common;
    }
    left
}

/// A cycle that may need very many evaluations: an expression is evaluated at
/// most once more than the leaves of each feedback in whose defining part it
/// lies, multiplied.
fn long(circuit: &Circuit) -> Option<Message> {
    let types = circuit.types();
    let mut all: u64 = 0;
    let mut open = vec![(usize::from(circuit.records[0][B]), 1_u64)];
    while let Some((number, times)) = open.pop() {
        all = all.saturating_add(times);
        let record = circuit.records[number];
        for (word, part) in expression_parts(&record) {
            let rounds = match record[KIND] == FEEDBACK && word == B {
                true => types.leaves(usize::from(record[A])).len() as u64 + 1,
                false => 1,
            };
            open.push((part, times.saturating_mul(rounds)));
        }
    }
    (all >= LONG).then(|| {
        let shown = grouped(all as usize);
        let sentence = format!("a cycle may take long: up to {shown} evaluations");
        Message::new(Kind::Warning, Place::File, sentence)
    })
}
