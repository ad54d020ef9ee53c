//! Labels of delays: none, all different, or some that stand twice.

use crate::draft::{Draft, Term};
use crate::random::Random;
use crate::records::{Record, D, DELAY, KIND};
use crate::survey::expressions;

/// How delays are labelled.
#[derive(Clone, Copy, PartialEq, Eq)]
pub enum Labels {
    None,
    Distinct,
    /// Different ones, and delays without a label.
    Some,
    Repeated,
}

impl Labels {
    pub fn any(random: &mut Random) -> Labels {
        let all = [Labels::None, Labels::Distinct, Labels::Some, Labels::Repeated];
        all[random.below(all.len())]
    }

    /// Labels for so many delays: small numbers, or with them the greatest.
    pub fn draw(self, count: usize, random: &mut Random) -> Vec<u16> {
        let first = if random.one_in(4) { 65_536 - count.min(65_535) } else { 1 };
        let mut labels: Vec<u16> = (0..count).map(|k| (first + k) as u16).collect();
        for k in (1..count).rev() {
            labels.swap(k, random.below(k + 1));
        }
        match self {
            Labels::None => labels.fill(0),
            Labels::Distinct => {}
            Labels::Some => labels.iter_mut().filter(|_| random.one_in(2)).for_each(|l| *l = 0),
            Labels::Repeated => {
                for k in 1..count {
                    if random.one_in(3) {
                        labels[k] = labels[random.below(k)];
                    }
                }
            }
        }
        labels
    }
}

/// Labels the delays of a circuit in any way.
pub fn label(draft: &mut Draft, random: &mut Random) {
    let labels = Labels::any(random);
    label_as(draft, labels, random);
}

/// Labels the delays of a circuit in one way.
pub fn label_as(draft: &mut Draft, labels: Labels, random: &mut Random) {
    let nodes = expressions(draft).into_iter().map(|spot| spot.node);
    let delays: Vec<usize> = nodes.filter(|&node| draft.kind(node) == DELAY).collect();
    for (delay, label) in delays.iter().zip(labels.draw(delays.len(), random)) {
        draft.nodes[*delay].words[D] = Term::Number(label);
    }
}

/// Gives the delays of a sheet labels in any way.
pub fn relabel(records: &mut [Record], random: &mut Random) {
    let labels = Labels::any(random);
    let delays: Vec<usize> = (1..records.len()).filter(|&n| records[n][KIND] == DELAY).collect();
    for (delay, label) in delays.iter().zip(labels.draw(delays.len(), random)) {
        records[*delay][D] = label;
    }
}
