//! Gives the nodes of a draft numbers that the numbering rule allows, and
//! writes the records.

use crate::draft::{Draft, Node, Term};
use crate::random::Random;
use crate::records::{bytes, sort, Record, Sort, C, NEXT};

/// How the next node is taken from those that may come next. Random order can
/// reach every layout; the others make extreme ones likely.
#[derive(Clone, Copy, PartialEq, Eq)]
pub enum Order {
    Random,
    Oldest,
    Newest,
    TypesFirst,
    TypesLate,
}

/// Every order, as in `Order`, in words.
pub const ORDERS: [&str; 5] =
    ["in random order", "oldest first", "newest first", "types first", "types late"];

impl Order {
    pub fn any(random: &mut Random) -> Order {
        match random.below(10) {
            0 => Order::Oldest,
            1 => Order::Newest,
            2 => Order::TypesFirst,
            3 => Order::TypesLate,
            _ => Order::Random,
        }
    }
}

/// The records of a draft in a random layout.
pub fn layout(draft: &Draft, random: &mut Random) -> Vec<Record> {
    layout_in(draft, Order::any(random), random)
}

/// The bytes of a draft in a random layout.
pub fn sheet(draft: &Draft, random: &mut Random) -> Vec<u8> {
    bytes(&layout(draft, random))
}

/// How many records a draft takes.
pub fn record_count(draft: &Draft) -> usize {
    let nodes = linked(draft);
    reached(&nodes, &draft.orphans).iter().filter(|&&r| r).count()
}

pub fn layout_in(draft: &Draft, order: Order, random: &mut Random) -> Vec<Record> {
    let nodes = linked(draft);
    let numbered = numbering(&nodes, &draft.orphans, order, random);
    let mut number = vec![0u16; nodes.len()];
    for (k, &node) in numbered.iter().enumerate() {
        number[node] = k as u16;
    }
    let mut records: Vec<Record> = numbered
        .iter()
        .map(|&node| {
            nodes[node].words.map(|term| match term {
                Term::Number(value) => value,
                Term::Type(target) | Term::Part(target) => number[target],
            })
        })
        .collect();
    records[0][C] = records.len() as u16;
    records
}

/// The nodes with the chain of types written into their nexts.
fn linked(draft: &Draft) -> Vec<Node> {
    let mut nodes = draft.nodes.clone();
    let mut last = 0;
    for &of in &draft.chain {
        nodes[last].words[NEXT] = Term::Part(of);
        last = of;
    }
    nodes
}

/// The nodes that are laid out: those named from the header on, and orphans.
fn reached(nodes: &[Node], orphans: &[usize]) -> Vec<bool> {
    let mut reached = vec![false; nodes.len()];
    let mut open = vec![0];
    open.extend(orphans);
    while let Some(node) = open.pop() {
        if std::mem::replace(&mut reached[node], true) {
            continue;
        }
        for term in nodes[node].words {
            if let Term::Part(part) = term {
                open.push(part);
            }
        }
    }
    reached
}

/// Which nodes must come before which others.
struct Constraints {
    /// The nodes that must come later than node n stand in `later` from
    /// `start[n]` to `start[n + 1]`.
    start: Vec<usize>,
    later: Vec<usize>,
    /// How many must come earlier than each node.
    earlier: Vec<usize>,
}

fn constraints(nodes: &[Node], reached: &[bool]) -> Constraints {
    let mut edges: Vec<(usize, usize)> = Vec::with_capacity(2 * nodes.len());
    for node in (0..nodes.len()).filter(|&n| reached[n]) {
        for term in nodes[node].words {
            match term {
                Term::Part(part) => edges.push((node, part)),
                Term::Type(of) if node != 0 => edges.push((of, node)),
                _ => {}
            }
        }
    }
    let mut start = vec![0; nodes.len() + 1];
    let mut earlier = vec![0; nodes.len()];
    for &(low, high) in &edges {
        start[low + 1] += 1;
        earlier[high] += 1;
    }
    for n in 0..nodes.len() {
        start[n + 1] += start[n];
    }
    let mut free = start.clone();
    let mut later = vec![0; edges.len()];
    for (low, high) in edges {
        later[free[low]] = high;
        free[low] += 1;
    }
    Constraints { start, later, earlier }
}

/// A linear order of the laid out nodes, the header first.
fn numbering(nodes: &[Node], orphans: &[usize], order: Order, random: &mut Random) -> Vec<usize> {
    let reached = reached(nodes, orphans);
    let Constraints { start, later, mut earlier } = constraints(nodes, &reached);
    let mut ready: Vec<usize> =
        (1..nodes.len()).filter(|&n| reached[n] && earlier[n] == 0).collect();
    let mut numbered = Vec::with_capacity(nodes.len());
    let mut node = 0;
    loop {
        numbered.push(node);
        for &high in &later[start[node]..start[node + 1]] {
            earlier[high] -= 1;
            if earlier[high] == 0 {
                ready.push(high);
            }
        }
        if ready.is_empty() {
            break;
        }
        node = take(&mut ready, nodes, order, random);
    }
    assert_eq!(numbered.len(), reached.iter().filter(|&&r| r).count(), "no order");
    numbered
}

fn take(ready: &mut Vec<usize>, nodes: &[Node], order: Order, random: &mut Random) -> usize {
    let of_sort = |wanted: bool| {
        ready.iter().position(|&n| (sort(nodes[n].kind()) == Some(Sort::Type)) == wanted)
    };
    let at = match order {
        Order::Random => None,
        Order::Oldest => Some(0),
        Order::Newest => Some(ready.len() - 1),
        Order::TypesFirst => of_sort(true),
        Order::TypesLate => of_sort(false),
    };
    match at {
        Some(at) => ready.remove(at),
        None => {
            let at = random.below(ready.len());
            ready.swap_remove(at)
        }
    }
}
