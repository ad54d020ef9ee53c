//! Random circuits over a few small types: most names then fit most places,
//! so that feedbacks and delays depend on each other.

use super::circuits::{finish, Profile};
use crate::draft::Draft;
use crate::random::Random;

/// The greatest number of leaves of a small type.
const LEAVES: u64 = 4;

pub fn small(random: &mut Random) -> Draft {
    let mut draft = Draft::new();
    for _ in 0..random.range(1, 2) {
        let count = random.range(1, 3) as u16;
        draft.flat(count);
    }
    for _ in 0..random.below(4) {
        let first = random.pick(&draft.chain).unwrap_or(0);
        let second = random.pick(&draft.chain).unwrap_or(0);
        if draft.width(first) + draft.width(second) <= LEAVES {
            draft.need_pair(first, second);
        }
    }
    let profile =
        Profile { room: random.range(15, 80), limit: random.range(5, 14), spine: random.one_in(4) };
    finish(&mut draft, &profile, random);
    draft
}
