//! What was compared, and the quotas it has to meet.

use crate::answers::{WRONG_LENGTH, WRONG_NEXT_LENGTH, WRONG_STIMULUS};
use crate::frame::memory::PLACEMENTS;
use crate::frame::tally::{laid_out, of_codes, Quota};
use crate::layout::ORDERS;
use crate::records::KINDS;

pub const PER_CODE: u64 = 2_000;
pub const PER_TWO_CODES: u64 = 240;
const PER_KIND: u64 = 5_000;
const PER_LAYOUT: u64 = 5_000;
const PER_PLACEMENT: u64 = 20_000;

pub const SHEETS: &str = "accepted sheets with at least three cycles";
pub const DEFINED: &str = "runs with a defined output leaf";
pub const CHANGED: &str = "runs whose next sheet differs from the sheet";
pub const OUTPUTS_DIFFER: &str = "runs whose cycles differ in output";
pub const RULES: &str = "sheets on which the two rules for undecided IFs differ";
pub const RULES_IN_FEEDBACKS: &str = "sheets on which they differ inside feedbacks";
pub const OTHERS: &str = "runs with another fixed point above the least";
pub const SLOW: &str = "runs with a feedback of over 16 applications";
pub const SLOWEST: &str = "runs with a feedback of 64 applications";
pub const TRIED: &str = "feedbacks compared with all fixed points";
pub const NESTED: &str = "runs with feedbacks nested three deep";
pub const WIDE: &str = "runs with an expression of 64 leaves";
pub const CHAINS: &str = "runs with a constant or delay of 64 leaves";
pub const DEEP: &str = "runs with an expression at depth 64";
pub const LONGEST: &str = "accepted sheets of 4,096 records";
pub const SHARED: &str = "runs with a pattern that several IFs name";
pub const LABELLED: &str = "runs of labelled delays whose next sheet differs from the sheet";
pub const NO_CYCLES: &str = "accepted runs of no cycles";
pub const MANY_CYCLES: &str = "accepted stimuli of over 60,000 bytes";
pub const SHAPES: &str = "runs of named sheets";
pub const BENCH: &str = "runs of the bench cases and T";
pub const FUZZED: &str = "sheets changed at random";
pub const OVER: &str = "8: stimulus over 65,535 bytes";
pub const NOT_WHOLE: &str = "8: stimulus not whole cycles";
pub const ABOVE: &str = "9: one byte above its leaf's count";
pub const SOME_ABOVE: &str = "9: some bytes above their leaves' counts";
pub const OUT_SHORTER: &str = "10: output slice shorter";
pub const OUT_LONGER: &str = "10: output slice longer";
pub const OUT_OF_NO_CYCLES: &str = "10: output slice not empty for no cycles";
pub const OUT_NONE: &str = "10: output slice of 0 bytes";
pub const NEXT_SHORTER: &str = "11: next slice shorter";
pub const NEXT_LONGER: &str = "11: next slice longer";
pub const NEXT_OF_NO_CYCLES: &str = "11: next slice of another length for no cycles";
pub const NEXT_NONE: &str = "11: next slice of 0 bytes";

/// The quotas of the named counts.
pub const QUOTAS: [(&str, u64); 34] = [
    (SHEETS, 100_000),
    (DEFINED, 30_000),
    (CHANGED, 20_000),
    (OUTPUTS_DIFFER, 20_000),
    (RULES, 10_000),
    (RULES_IN_FEEDBACKS, 1_000),
    (OTHERS, 5_000),
    (TRIED, 50_000),
    (SLOW, 1_000),
    (SLOWEST, 200),
    (NESTED, 1_000),
    (WIDE, 1_000),
    (CHAINS, 1_000),
    (DEEP, 1_000),
    (LONGEST, 40),
    (SHARED, 20_000),
    (LABELLED, 10_000),
    (NO_CYCLES, 2_000),
    (MANY_CYCLES, 40),
    (SHAPES, 100),
    (BENCH, 200),
    (FUZZED, 10_000),
    (OVER, 1_000),
    (NOT_WHOLE, 1_000),
    (ABOVE, 2_000),
    (SOME_ABOVE, 2_000),
    (OUT_SHORTER, 1_000),
    (OUT_LONGER, 1_000),
    (OUT_NONE, 1_000),
    (OUT_OF_NO_CYCLES, 1_000),
    (NEXT_SHORTER, 1_000),
    (NEXT_LONGER, 1_000),
    (NEXT_NONE, 1_000),
    (NEXT_OF_NO_CYCLES, 1_000),
];

/// Two codes of which one is about the call: the lower one, the higher one.
pub fn two_codes() -> impl Iterator<Item = (u8, u8)> {
    (WRONG_STIMULUS..=WRONG_NEXT_LENGTH)
        .flat_map(|high| (WRONG_LENGTH..high).map(move |low| (low, high)))
}

/// The named ways to break the rule of a code.
pub fn ways(code: u8) -> impl Iterator<Item = &'static str> {
    let of_code = move |name: &&str| name.starts_with(&format!("{code}: "));
    QUOTAS.iter().map(|(name, _)| *name).filter(of_code)
}

/// The name of the count of accepted sheets with a kind.
pub fn with_kind(kind: u16) -> String {
    format!("accepted sheets with kind {kind}")
}

/// Every quota.
pub fn quotas() -> Vec<Quota> {
    let mut quotas = Quota::all(&QUOTAS);
    let codes = WRONG_LENGTH..=WRONG_NEXT_LENGTH;
    quotas.extend(codes.map(|code| Quota::new(format!("runs with code {code}"), PER_CODE)));
    quotas.extend(two_codes().map(|(low, high)| Quota::new(of_codes(low, high), PER_TWO_CODES)));
    quotas.extend(KINDS.iter().map(|kind| Quota::new(with_kind(*kind), PER_KIND)));
    quotas.extend(ORDERS.iter().map(|order| Quota::new(laid_out(order), PER_LAYOUT)));
    let placed = |name| Quota::new(format!("runs with slices {name}"), PER_PLACEMENT);
    quotas.extend(PLACEMENTS.map(placed));
    quotas
}
