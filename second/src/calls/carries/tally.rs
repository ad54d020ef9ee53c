//! What was compared, and the quotas it has to meet.

use crate::answers::{
    ACCEPTED, ILL_TYPED, LABEL_TWICE, NEW_SHEET_REFUSED, WRONG_LENGTH, WRONG_NEXT_LENGTH,
};
use crate::frame::memory::PLACEMENTS;
use crate::frame::tally::Quota;

const ACCEPTED_CARRIES: u64 = 50_000;
pub const PER_CODE: u64 = 1_000;
pub const PER_NEW_CODE: u64 = 1_000;
const PER_PLACEMENT: u64 = 20_000;

pub const CARRIED: &str = "carried values that differ from the new sheet's own";
pub const UNDEFINED: &str = "carried values with an undefined leaf";
pub const ALIKE: &str = "one label on two equal shapes";
pub const ALIKE_PAIRS: &str = "one label on two equal shapes of pairs";
pub const ALIKE_ELSEWHERE: &str = "one label on equal shapes by other records";
pub const UNLIKE: &str = "one label on two unequal shapes";
pub const OTHER_COUNTS: &str = "one label on shapes that differ in counts alone";
pub const OTHER_PAIRS: &str = "one label on the same leaves in other pairs";
pub const PAIR_AND_FLAT: &str = "one label on a pair and a flat";
pub const NO_PARTNER: &str = "labels that the old sheet lacks";
pub const ZEROS: &str = "accepted, delays without a label in both sheets";
pub const ZERO_TWICE: &str = "accepted, label 0 twice in one sheet";
pub const RUNNING: &str = "running sheets carried into those they began as";
pub const OLD_TWICE: &str = "19: a label twice in the old sheet";
pub const NEW_TWICE: &str = "19: a label twice in the new sheet";
pub const BOTH_TWICE: &str = "19: a label twice in both sheets";
pub const SEVERAL_TWICE: &str = "19: several labels twice in one sheet";
pub const NEXT_NONE: &str = "11: next slice of 0 bytes";
pub const NEXT_SHORTER: &str = "11: next slice shorter";
pub const NEXT_LONGER: &str = "11: next slice longer";
pub const NEXT_OF_OLD: &str = "11: next slice as long as the old sheet";
pub const BOTH_REFUSED: &str = "faults in both sheets";
pub const REFUSED_AND_TWICE: &str = "faults of 18 and 19";
pub const REFUSED_AND_LENGTH: &str = "faults of 18 and 11";
pub const TWICE_AND_LENGTH: &str = "faults of 19 and 11";
pub const OLD_AND_LENGTH: &str = "faults of the old sheet and 11";
pub const FUZZED: &str = "sheets changed at random";
pub const LARGE: &str = "two sheets of many labelled delays";

/// The quotas of the named counts.
pub const QUOTAS: [(&str, u64); 28] = [
    (CARRIED, 20_000),
    (UNDEFINED, 5_000),
    (ALIKE, 20_000),
    (ALIKE_PAIRS, 5_000),
    (ALIKE_ELSEWHERE, 5_000),
    (UNLIKE, 20_000),
    (OTHER_COUNTS, 5_000),
    (OTHER_PAIRS, 2_000),
    (PAIR_AND_FLAT, 5_000),
    (NO_PARTNER, 5_000),
    (ZEROS, 5_000),
    (ZERO_TWICE, 5_000),
    (RUNNING, 10_000),
    (OLD_TWICE, 3_000),
    (NEW_TWICE, 3_000),
    (BOTH_TWICE, 2_000),
    (SEVERAL_TWICE, 500),
    (NEXT_NONE, 500),
    (NEXT_SHORTER, 500),
    (NEXT_LONGER, 500),
    (NEXT_OF_OLD, 500),
    (BOTH_REFUSED, 2_000),
    (REFUSED_AND_TWICE, 1_000),
    (REFUSED_AND_LENGTH, 1_000),
    (TWICE_AND_LENGTH, 1_000),
    (OLD_AND_LENGTH, 1_000),
    (FUZZED, 5_000),
    (LARGE, 32),
];

/// The name of the count of calls by the code that the new sheet is refused with.
pub fn of_new_sheet(code: u32) -> String {
    format!("{NEW_SHEET_REFUSED}: new sheet refused with {code}")
}

/// Every quota.
pub fn quotas() -> Vec<Quota> {
    let of_code = |code: u8, least: u64| Quota::new(format!("carries with code {code}"), least);
    let mut quotas = vec![of_code(ACCEPTED, ACCEPTED_CARRIES)];
    quotas.extend(Quota::all(&QUOTAS));
    let of_sheet = WRONG_LENGTH..=ILL_TYPED;
    let after_check = [WRONG_NEXT_LENGTH, NEW_SHEET_REFUSED, LABEL_TWICE];
    quotas.extend(of_sheet.clone().chain(after_check).map(|code| of_code(code, PER_CODE)));
    quotas.extend(of_sheet.map(|code| Quota::new(of_new_sheet(code.into()), PER_NEW_CODE)));
    let placed = |name| Quota::new(format!("carries with slices {name}"), PER_PLACEMENT);
    quotas.extend(PLACEMENTS.map(placed));
    quotas
}
