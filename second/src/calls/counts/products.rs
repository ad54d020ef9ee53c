//! Input types whose leaves' constructor counts have a given product.

use super::counting::MOST_INPUTS;
use crate::draft::Draft;
use crate::random::Random;

/// The most constructors of a flat type, and the most leaves of a type.
const MOST_CONSTRUCTORS: usize = 255;
const MOST_LEAVES: usize = 64;

/// The lowest product above the most inputs: 4 * 5 * 29 * 113. Each number
/// between has a prime factor above 255.
pub const JUST_OVER: usize = 65_540;

/// How many fully defined inputs a draft has; at most `usize::MAX`.
pub fn inputs_of(draft: &Draft) -> usize {
    let counts = draft.counts(draft.input());
    counts.into_iter().map(usize::from).fold(1, usize::saturating_mul)
}

/// Constructor counts of leaves with a product, in any order; none if it has a
/// prime factor above 255.
pub fn counts_of(product: usize, random: &mut Random) -> Option<Vec<usize>> {
    let mut counts: Vec<usize> = Vec::new();
    for prime in primes_of(product) {
        if prime > MOST_CONSTRUCTORS {
            return None;
        }
        let at = random.below(counts.len() + 1);
        match counts.get_mut(at) {
            Some(count) if *count * prime <= MOST_CONSTRUCTORS => *count *= prime,
            _ => counts.push(prime),
        }
    }
    Some(shuffled(counts, random))
}

/// The prime factors of a number, the lowest first.
fn primes_of(mut number: usize) -> Vec<usize> {
    let mut primes = Vec::new();
    let mut divisor = 2;
    while number > 1 {
        if divisor * divisor > number {
            divisor = number;
        }
        if number.is_multiple_of(divisor) {
            primes.push(divisor);
            number /= divisor;
        } else {
            divisor += 1;
        }
    }
    primes
}

fn shuffled(mut counts: Vec<usize>, random: &mut Random) -> Vec<usize> {
    for k in (1..counts.len()).rev() {
        counts.swap(k, random.below(k + 1));
    }
    counts
}

/// Counts of a product between two numbers, both included.
pub fn counts_between(low: usize, high: usize, random: &mut Random) -> Vec<usize> {
    loop {
        if let Some(counts) = counts_of(random.range(low, high), random) {
            return counts;
        }
    }
}

/// The same counts and leaves of one constructor among them: none, some, or as
/// many as a type can have.
pub fn with_ones(mut counts: Vec<usize>, random: &mut Random) -> Vec<usize> {
    let room = MOST_LEAVES - counts.len();
    let ones = match random.below(12) {
        0 => room,
        1..=4 => random.range(1, 4).min(room),
        _ => 0,
    };
    let least = usize::from(counts.is_empty());
    counts.extend(vec![1; ones.max(least)]);
    shuffled(counts, random)
}

/// The ways to have more inputs than are counted.
pub const LOWEST: &str = "20: 65,540 inputs";
pub const SLIGHTLY: &str = "20: up to 66,000 inputs";
pub const TWO_TO_17: &str = "20: 2^17 inputs";
pub const BY_2_TO_32: &str = "20: a product that 2^32 divides";
pub const BY_2_TO_64: &str = "20: a product that 2^64 divides";
pub const MOST: &str = "20: 64 leaves of 255 constructors";
pub const ANY: &str = "20: any type over the limit";

pub const WAYS: [&str; 7] = [LOWEST, SLIGHTLY, TWO_TO_17, BY_2_TO_32, BY_2_TO_64, MOST, ANY];

/// Counts of more inputs than are counted, made in one of the ways but the last.
pub fn counts_over(way: &str, random: &mut Random) -> Option<Vec<usize>> {
    let of_bits = |bits: usize, random: &mut Random| {
        let mut counts = vec![1 << random.range(1, 7)];
        while counts.iter().map(|count: &usize| count.ilog2()).sum::<u32>() < bits as u32 {
            counts.push(1 << random.range(1, 7));
        }
        shuffled(counts, random)
    };
    match way {
        LOWEST => counts_of(JUST_OVER, random),
        SLIGHTLY => Some(counts_between(MOST_INPUTS + 1, 66_000, random)),
        TWO_TO_17 => counts_of(1 << 17, random),
        BY_2_TO_32 => Some(of_bits(32, random)),
        BY_2_TO_64 => Some(of_bits(64, random)),
        MOST => Some(vec![MOST_CONSTRUCTORS; MOST_LEAVES]),
        _ => None,
    }
    .filter(|counts| counts.len() <= MOST_LEAVES)
}

/// A type of leaves with these counts, split at random.
pub fn type_of(draft: &mut Draft, counts: &[usize], random: &mut Random) -> usize {
    match counts {
        [count] => {
            let alike = |&of: &usize| draft.counts(of) == [*count as u16];
            let flats: Vec<usize> = draft.chain.iter().copied().filter(alike).collect();
            match random.pick(&flats) {
                Some(flat) if !random.one_in(5) => flat,
                _ => draft.flat(*count as u16),
            }
        }
        _ => {
            let (low, high) = counts.split_at(random.range(1, counts.len() - 1));
            let (first, second) = (type_of(draft, low, random), type_of(draft, high, random));
            draft.need_pair(first, second)
        }
    }
}
