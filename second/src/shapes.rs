//! Named sheets: samples, sheets at the limits, and sheets of 4,096 records
//! that cost a check most.

mod building;
mod delays;
mod large;
mod limits;
mod patterns;
mod running;

use crate::samples;

pub type Make = fn() -> Vec<u8>;

/// Small sheets and sheets at the limits.
pub const SMALL: [(&str, Make); 15] = [
    ("T", samples::t),
    ("and", samples::and),
    ("not-feedback", samples::not_feedback),
    ("pair-feedback", samples::pair_feedback),
    ("self-feedback", samples::self_feedback),
    ("two-pairs", samples::two_pairs),
    ("deepest", limits::depth_64),
    ("depth-65", limits::depth_65),
    ("leaves-64", limits::leaves_64),
    ("leaves-65", limits::leaves_65),
    ("nesting-3", limits::nesting_3),
    ("nesting-4", limits::nesting_4),
    ("many-bodies", limits::many_bodies),
    ("longest", limits::longest),
    ("too-long", limits::too_long),
];

/// Sheets of 4,096 records.
pub const LARGE: [(&str, Make); 25] = [
    ("deep", large::deep),
    ("wide", large::wide),
    ("wide-random", large::wide_random),
    ("pair-types", large::pair_types),
    ("pair-types-random", large::pair_types_random),
    ("pair-types-repeated", large::pair_types_repeated),
    ("pair-lookups-last", large::pair_lookups_last),
    ("pair-lookups-first", large::pair_lookups_first),
    ("flat-types", large::flat_types),
    ("leaf-chains", large::leaf_chains),
    ("deep-constants", large::deep_constants),
    ("deep-constants-right", large::deep_constants_right),
    ("delays", large::delays),
    ("one-leaf-chain", large::one_leaf_chain),
    ("pattern-chain", patterns::pattern_chain),
    ("nested-patterns", patterns::nested_patterns),
    ("deep-pattern", patterns::deep_pattern),
    ("shared-pattern", patterns::shared_pattern),
    ("shared-nested-pattern", patterns::shared_nested_pattern),
    ("labelled-delays", delays::labelled),
    ("labelled-delays-again", delays::labelled_again),
    ("wide-delays", delays::wide),
    ("wide-delays-again", delays::wide_again),
    ("names", large::names),
    ("doubled-types", large::doubled_types),
];

/// Sheets for runs.
pub const RUNNING: [(&str, Make); 7] = [
    ("T-64-times", running::side_by_side),
    ("counter", running::counter),
    ("counter-64-times", running::counters),
    ("slow-feedback-64", running::one_slow),
    ("three-slow-feedbacks-8", running::three_slow_8),
    ("three-slow-feedbacks-64", running::three_slow_64),
    ("random-4000", running::random_4000),
];

/// Every named sheet.
pub fn all() -> impl Iterator<Item = &'static (&'static str, Make)> {
    SMALL.iter().chain(&LARGE).chain(&RUNNING)
}

/// The named sheet.
pub fn named(name: &str) -> Option<Vec<u8>> {
    all().find(|(n, _)| *n == name).map(|(_, make)| make())
}
