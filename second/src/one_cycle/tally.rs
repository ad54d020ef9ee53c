//! What was compared, and the quotas it has to meet.

use super::kind::Kind;
use crate::answers::{WRONG_INPUT, WRONG_LENGTH, WRONG_STIMULUS};
use crate::frame::memory::PLACEMENTS;
use crate::frame::tally::{laid_out, of_codes, Quota};
use crate::layout::ORDERS;

pub const PER_CODE: u64 = 1_000;
pub const PER_TWO_CODES: u64 = 120;
const PER_LAYOUT: u64 = 2_000;
const PER_PLACEMENT: u64 = 10_000;

pub const BENCH: &str = "calls on the bench cases and T";
pub const SHAPES: &str = "calls on named sheets";
pub const LONGEST: &str = "accepted sheets of 4,096 records";
pub const FUZZED: &str = "sheets changed at random";
pub const EMPTY: &str = "8: stimulus empty";
pub const PART: &str = "8: stimulus of a part of a cycle";
pub const TWO: &str = "8: stimulus of two cycles";
pub const MORE: &str = "8: stimulus of three cycles or more";
pub const NOT_WHOLE: &str = "8: stimulus of a cycle and a part";
pub const OVER: &str = "8: stimulus over 65,535 bytes";
pub const ABOVE: &str = "9: one byte above its leaf's count";
pub const SOME_ABOVE: &str = "9: some bytes above their leaves' counts";
pub const NONE: &str = "slice of length 0";
pub const SHORTER: &str = "slice shorter";
pub const LONGER: &str = "slice longer";
pub const OF_INPUT: &str = "slice as long as the input has leaves";
pub const OF_TWO: &str = "slice as long as two cycles ask for";

/// The quotas of the named counts that every kind has.
pub const QUOTAS: [(&str, u64); 17] = [
    (BENCH, 200),
    (SHAPES, 100),
    (LONGEST, 40),
    (FUZZED, 5_000),
    (EMPTY, 1_000),
    (PART, 500),
    (TWO, 1_000),
    (MORE, 500),
    (NOT_WHOLE, 500),
    (OVER, 500),
    (ABOVE, 1_000),
    (SOME_ABOVE, 500),
    (NONE, 500),
    (SHORTER, 500),
    (LONGER, 500),
    (OF_INPUT, 500),
    (OF_TWO, 500),
];

/// The named ways to break the rule of a code from 8 on.
pub fn ways(code: u8) -> &'static [&'static str] {
    match code {
        WRONG_STIMULUS => &[EMPTY, PART, TWO, MORE, NOT_WHOLE, OVER],
        WRONG_INPUT => &[ABOVE, SOME_ABOVE],
        _ => &[NONE, SHORTER, LONGER, OF_INPUT, OF_TWO],
    }
}

/// The codes of a kind, the lowest first.
pub fn codes<K: Kind>() -> impl Iterator<Item = u8> {
    (WRONG_LENGTH..=WRONG_INPUT).chain([K::LENGTH_CODE])
}

/// Two codes of which one is about the call: the lower one, the higher one.
pub fn two_codes<K: Kind>() -> Vec<(u8, u8)> {
    let about_call = [WRONG_STIMULUS, WRONG_INPUT, K::LENGTH_CODE];
    about_call
        .into_iter()
        .flat_map(|high| {
            codes::<K>().take_while(move |low| *low < high).map(move |low| (low, high))
        })
        .collect()
}

/// The name of the count of calls that are accepted.
pub fn accepted(what: &str) -> String {
    format!("accepted {what}")
}

/// Every quota.
pub fn quotas<K: Kind>() -> Vec<Quota> {
    let what = K::WHAT;
    let of_code = |code: u8, least: u64| Quota::new(format!("{what} with code {code}"), least);
    let mut quotas = vec![Quota::new(accepted(what), K::LEAST)];
    quotas.extend(Quota::all(K::QUOTAS));
    quotas.extend(Quota::all(&QUOTAS));
    quotas.extend(codes::<K>().map(|code| of_code(code, PER_CODE)));
    let both = |(low, high)| Quota::new(of_codes(low, high), PER_TWO_CODES);
    quotas.extend(two_codes::<K>().into_iter().map(both));
    quotas.extend(ORDERS.iter().map(|order| Quota::new(laid_out(order), PER_LAYOUT)));
    let placed = |name| Quota::new(format!("{what} with slices {name}"), PER_PLACEMENT);
    quotas.extend(PLACEMENTS.map(placed));
    quotas
}
