//! Random circuits of a size and form.

use super::expressions::Grower;
use super::{labels, patterns, types};
use crate::draft::{Draft, Term};
use crate::layout::record_count;
use crate::random::Random;
use crate::records::{MAX_RECORDS, NEXT};
use crate::survey::alternatives;

/// The size and form of a random circuit.
pub struct Profile {
    /// About how many records the expressions take.
    pub room: usize,
    /// The greatest depth.
    pub limit: usize,
    /// Whether some expression lies exactly at the greatest depth.
    pub spine: bool,
}

/// A random circuit of a random profile.
pub fn circuit(random: &mut Random) -> Draft {
    let profile = match random.below(24) {
        0 => Profile { room: random.range(40, 200), limit: 64, spine: true },
        1 => Profile { room: random.range(200, 600), limit: 64, spine: false },
        2 => Profile { room: random.range(1, 30), limit: random.range(1, 10), spine: false },
        3 => Profile { room: 60, limit: random.range(10, 40), spine: true },
        _ => Profile { room: random.range(30, 110), limit: random.range(5, 16), spine: false },
    };
    circuit_of(&profile, random)
}

/// A random circuit of a given profile, of at most 4,096 records.
pub fn circuit_of(profile: &Profile, random: &mut Random) -> Draft {
    loop {
        let mut draft = types::chain(random);
        finish(&mut draft, profile, random);
        if record_count(&draft) <= MAX_RECORDS {
            return draft;
        }
    }
}

/// Adds a random input type and a random expression to a draft with types.
pub fn finish(draft: &mut Draft, profile: &Profile, random: &mut Random) {
    let input = random.pick(&draft.chain).unwrap_or(0);
    let output = random.pick(&draft.chain).unwrap_or(0);
    draft.set_input(input);
    let mut grower = Grower::new(draft, random, vec![input], profile.limit);
    let root = grower.expression(output, 1, profile.room, profile.spine);
    draft.set_root(root);
    patterns::share(draft, random);
    labels::label(draft, random);
}

/// A circuit of exactly this many records, grown and then filled up with
/// types and alternatives.
pub fn circuit_of_records(records: usize, random: &mut Random) -> Draft {
    loop {
        let room = records * random.range(20, 95) / 100;
        let spine = random.one_in(3);
        let mut draft = types::chain(random);
        finish(&mut draft, &Profile { room, limit: 64, spine }, random);
        let count = record_count(&draft);
        if count <= records {
            fill(&mut draft, records - count, random);
            return draft;
        }
    }
}

/// Adds records that keep every rule: flat types anywhere in the chain of
/// types, and alternatives after others.
fn fill(draft: &mut Draft, records: usize, random: &mut Random) {
    let spots = alternatives(draft);
    for _ in 0..records {
        if let (Some(spot), false) = (random.pick(&spots), random.one_in(2)) {
            let of = draft.nodes[spot.node].of;
            let added = draft.whole(of);
            draft.nodes[added].words[NEXT] = draft.nodes[spot.node].words[NEXT];
            draft.nodes[spot.node].words[NEXT] = Term::Part(added);
        } else {
            let added = draft.loose_flat(random.range(1, 255) as u16);
            let at = random.below(draft.chain.len() + 1);
            draft.chain.insert(at, added);
        }
    }
}
