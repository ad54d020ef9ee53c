//! Random texts, by the generators of the second program.

use second::generate::circuits::circuit;
use second::generate::network::network;
use second::generate::small::small;
use second::random::Random;
use second::text::generate::sentence::Sentence;
use second::text::generate::{circuits, free};

/// A text whose names are right: a circuit that keeps every rule, or one with
/// any types.
pub fn sentence(random: &mut Random) -> Sentence {
    match random.below(30) {
        0 => circuits::sentence(&network(random), random),
        1..=7 => circuits::sentence(&small(random), random),
        8 | 9 => circuits::sentence(&circuit(random), random),
        _ => {
            let room = random.range(1, 40);
            free::sentence(room, false, random)
        }
    }
}
