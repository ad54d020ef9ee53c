//! Numbers that code 21 refuses.

use crate::random::Random;

pub const AT_COUNT: &str = "21: the number of output leaves";
pub const SOME_MORE: &str = "21: some more than the number of output leaves";
pub const TWO_TO_32: &str = "21: 2^32";
pub const LOW_HALF: &str = "21: above 2^32, its low half an output leaf";
pub const MOST: &str = "21: 2^64-1";

/// The ways to miss all output leaves.
pub const WAYS: [&str; 5] = [AT_COUNT, SOME_MORE, TWO_TO_32, LOW_HALF, MOST];

/// A number that is not below that of the output leaves, and its way.
pub fn other_leaf(leaves: usize, random: &mut Random) -> Option<(&'static str, usize)> {
    let way = random.pick(&WAYS)?;
    let leaf = match way {
        AT_COUNT => leaves,
        SOME_MORE => leaves + random.range(1, 300),
        TWO_TO_32 => 1 << 32,
        LOW_HALF => (random.range(1, u32::MAX as usize) << 32) + random.below(leaves),
        _ => usize::MAX,
    };
    Some((way, leaf))
}
