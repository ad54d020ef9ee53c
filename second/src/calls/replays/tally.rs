//! What was compared, and the quotas it has to meet.

use super::case::Case;
use super::cases::Ran;
use super::replay::WRONG_RECORDED_LENGTH;
use crate::answers::{WRONG_INPUT, WRONG_LENGTH, WRONG_NEXT_LENGTH, WRONG_STIMULUS};
use crate::calls::runs::tally::{
    ABOVE as BYTE_ABOVE, NEXT_LONGER, NEXT_NONE, NEXT_OF_NO_CYCLES, NEXT_SHORTER, NOT_WHOLE, OVER,
    SOME_ABOVE,
};
use crate::frame::memory::PLACEMENTS;
use crate::frame::tally::{laid_out, of_codes, Quota};
use crate::labels::labels;
use crate::layout::ORDERS;
use crate::records::{read, KIND, KINDS};
use crate::stimulus::LONGEST_STIMULUS;

pub const ACCEPTED_REPLAYS: u64 = 50_000;
pub const PER_CODE: u64 = 1_000;
pub const PER_TWO_CODES: u64 = 120;
const PER_KIND: u64 = 2_000;
const PER_LAYOUT: u64 = 2_000;
const PER_PLACEMENT: u64 = 10_000;
/// Both lengths wrong, of which 17 is given.
pub const BOTH_LENGTHS: u64 = 1_000;

pub const ACCEPTED_ONES: &str = "accepted replays";
const AGREEING: &str = "agreeing records";
const NO_CYCLES: &str = "agreeing records of no cycles";
const AGREEING_CHANGED: &str = "agreeing records with a delay that changed";
const AGREEING_LABELLED: &str = "agreeing records with a labelled delay that changed";
const FIRST_CYCLE: &str = "differing in the first cycle";
const LATER_CYCLE: &str = "differing first in a later cycle";
const LAST_LEAF: &str = "differing in the last leaf of the last cycle alone";
const LEAF_0: &str = "differing at leaf 0";
const LATER_LEAF: &str = "differing first at a later leaf";
const SEVERAL_CYCLES: &str = "differing in several cycles";
const SEVERAL_LEAVES: &str = "differing in several leaves of the first cycle that does";
const LOWER_LATER: &str = "differing in a lower leaf of a later cycle";
const DELAY_DECIDES: &str = "differing, with a delay that changed";
const ABOVE: &str = "differing by a byte above its count";
const ZERO: &str = "differing by 0 against a value";
const AGAINST_ZERO: &str = "differing by a value against 0";
const TWO_VALUES: &str = "differing by one value against another";
const AS_BELOW: &str = "differing only by 0 against values";
const WIDE: &str = "records of 64 leaves a cycle";
pub const LONGEST: &str = "replays on sheets of 4,096 records";
pub const MANY_CYCLES: &str = "replays of stimuli over 60,000 bytes";
const LATE: &str = "differing first in a cycle above 10,000";
pub const MOST_BYTES: &str = "records of 4,194,240 bytes";
pub const SHAPES: &str = "replays on named sheets";
pub const BENCH: &str = "replays on the bench cases and T";
pub const FUZZED: &str = "sheets changed at random";
pub const DIFFERING_AND_LENGTH: &str = "11 where the record differs";
pub const SHORTER: &str = "17: record shorter";
pub const LONGER: &str = "17: record longer";
pub const EMPTY: &str = "17: record of 0 bytes";
pub const OF_NO_CYCLES: &str = "17: record not empty for no cycles";

/// The quotas of the named counts.
pub const QUOTAS: [(&str, u64); 40] = [
    (ACCEPTED_ONES, ACCEPTED_REPLAYS),
    (AGREEING, 10_000),
    (NO_CYCLES, 2_000),
    (AGREEING_CHANGED, 2_000),
    (AGREEING_LABELLED, 1_000),
    (FIRST_CYCLE, 2_000),
    (LATER_CYCLE, 2_000),
    (LAST_LEAF, 500),
    (LEAF_0, 2_000),
    (LATER_LEAF, 2_000),
    (SEVERAL_CYCLES, 2_000),
    (SEVERAL_LEAVES, 2_000),
    (LOWER_LATER, 1_000),
    (DELAY_DECIDES, 2_000),
    (ABOVE, 2_000),
    (ZERO, 2_000),
    (AGAINST_ZERO, 2_000),
    (TWO_VALUES, 2_000),
    (AS_BELOW, 1_000),
    (WIDE, 500),
    (LONGEST, 40),
    (MANY_CYCLES, 40),
    (LATE, 8),
    (MOST_BYTES, 16),
    (SHAPES, 100),
    (BENCH, 200),
    (FUZZED, 5_000),
    (DIFFERING_AND_LENGTH, 1_000),
    (OVER, 500),
    (NOT_WHOLE, 500),
    (BYTE_ABOVE, 500),
    (SOME_ABOVE, 500),
    (SHORTER, 500),
    (LONGER, 500),
    (EMPTY, 500),
    (OF_NO_CYCLES, 500),
    (NEXT_SHORTER, 500),
    (NEXT_LONGER, 500),
    (NEXT_NONE, 500),
    (NEXT_OF_NO_CYCLES, 500),
];

/// The codes, in the order in which they are judged.
pub fn codes() -> impl Iterator<Item = u8> {
    (WRONG_LENGTH..=WRONG_INPUT).chain([WRONG_RECORDED_LENGTH, WRONG_NEXT_LENGTH])
}

/// Two codes of which one is about the call: the one that is given, the other.
pub fn two_codes() -> Vec<(u8, u8)> {
    let before = |other: u8| {
        let judged_before = codes().take_while(move |code| *code != other);
        judged_before.map(move |first| (first, other))
    };
    codes().filter(|code| *code >= WRONG_STIMULUS).flat_map(before).collect()
}

/// How many there are to be of two codes.
pub fn least_of(first: u8, other: u8) -> u64 {
    match (first, other) {
        (WRONG_RECORDED_LENGTH, WRONG_NEXT_LENGTH) => BOTH_LENGTHS,
        _ => PER_TWO_CODES,
    }
}

/// The named ways to break the rule of a code.
pub fn ways(code: u8) -> Vec<&'static str> {
    let of_code = |name: &&str| name.starts_with(&format!("{code}: "));
    QUOTAS.iter().map(|(name, _)| *name).filter(of_code).collect()
}

/// The name of the count of replays on sheets with a kind.
fn with_kind(kind: u16) -> String {
    format!("replays on sheets with kind {kind}")
}

/// What comes up in a replay that keeps every rule, by comparing the record with
/// the outputs of the run.
pub fn counts(case: &Case, ran: &Ran) -> Vec<(String, bool)> {
    let Ran { outputs, next, counts, .. } = ran;
    let (recorded, leaves) = (&case.recorded, counts.len());
    let at: Vec<usize> = (0..outputs.len()).filter(|&k| recorded[k] != outputs[k]).collect();
    let changed = *next != case.sheet;
    let mut came_up = vec![
        (WIDE, leaves == 64 && !outputs.is_empty()),
        (MANY_CYCLES, case.stimulus.len() > 60_000),
        (MOST_BYTES, recorded.len() == 64 * LONGEST_STIMULUS),
        (AGREEING, at.is_empty()),
        (NO_CYCLES, outputs.is_empty()),
        (AGREEING_CHANGED, at.is_empty() && changed),
        (DELAY_DECIDES, !at.is_empty() && changed),
    ];
    if at.is_empty() && changed {
        let labelled = labels(&case.sheet).iter().any(|&label| label != 0);
        came_up.push((AGREEING_LABELLED, labelled));
    }
    if let Some(&first) = at.first() {
        let (cycle, leaf) = (first / leaves, first % leaves);
        let of_cycle = at.iter().filter(|&&k| k / leaves == cycle).count();
        let (byte, given) = (recorded[first], outputs[first]);
        let later_lower = at.iter().any(|&k| k / leaves > cycle && k % leaves < leaf);
        came_up.extend([
            (FIRST_CYCLE, cycle == 0),
            (LATER_CYCLE, cycle > 0),
            (LATE, cycle > 10_000),
            (LAST_LEAF, outputs.len() > 1 && first + 1 == outputs.len()),
            (LEAF_0, leaf == 0),
            (LATER_LEAF, leaf > 0),
            (SEVERAL_CYCLES, at.len() > of_cycle),
            (SEVERAL_LEAVES, of_cycle > 1),
            (LOWER_LATER, later_lower),
            (ABOVE, byte > counts[leaf]),
            (ZERO, byte == 0),
            (AGAINST_ZERO, given == 0 && byte <= counts[leaf]),
            (TWO_VALUES, given != 0 && byte != 0 && byte <= counts[leaf]),
            (AS_BELOW, at.iter().all(|&k| recorded[k] == 0)),
        ]);
    }
    let mut named: Vec<(String, bool)> =
        came_up.into_iter().map(|(name, holds)| (name.to_string(), holds)).collect();
    let records = read(&case.sheet);
    let has = |kind: u16| records.iter().any(|record| record[KIND] == kind);
    named.extend(KINDS.iter().map(|&kind| (with_kind(kind), has(kind))));
    named
}

/// Every quota.
pub fn quotas() -> Vec<Quota> {
    let mut quotas = Quota::all(&QUOTAS);
    let of_code = |code: u8| Quota::new(format!("replays with code {code}"), PER_CODE);
    quotas.extend(codes().map(of_code));
    let both = |(first, other)| Quota::new(of_codes(first, other), least_of(first, other));
    quotas.extend(two_codes().into_iter().map(both));
    quotas.extend(KINDS.iter().map(|kind| Quota::new(with_kind(*kind), PER_KIND)));
    quotas.extend(ORDERS.iter().map(|order| Quota::new(laid_out(order), PER_LAYOUT)));
    let placed = |name| Quota::new(format!("replays with slices {name}"), PER_PLACEMENT);
    quotas.extend(PLACEMENTS.map(placed));
    quotas
}
