//! What was compared, and the quotas it has to meet.

use crate::answers::{ILL_TYPED, WRONG_LENGTH};
use crate::faults::category::Category;
use crate::frame::tally::{of_codes, Quota, Tally};
use crate::records::KINDS;

const PER_KIND: u64 = 5_000;
pub const PER_CATEGORY: u64 = 2_000;
pub const PER_TWO_CODES: u64 = 480;
/// The least number of sheets with faults of two codes.
const TWO_FAULTS: u64 = 10_000;
/// At least so many of the sheets made for a category have to hit its code.
const PERCENT_HIT: u64 = 90;

pub const ACCEPTED: &str = "accepted, over 30 records";
pub const SHARED: &str = "accepted, a pattern named by two IFs";
pub const SHARED_BY_MORE: &str = "accepted, a pattern named by three IFs or more";
pub const LABELLED: &str = "accepted, a delay with a label";
pub const LABELLED_TWICE: &str = "accepted, two delays with one label";
pub const HEADERS: &str = "damaged headers";
pub const LENGTHS: &str = "every length from 0 to 64, and around 49,152";
pub const PREFIXES: &str = "prefixes of T";
pub const BYTES: &str = "single-byte changes of T";
pub const SHAPES: &str = "named sheets";
pub const DEPTH_64: &str = "depth 64 accepted";
pub const NESTING_3: &str = "in three feedbacks accepted";
pub const LEAVES_64: &str = "64 leaves accepted";
pub const BODIES: &str = "feedbacks in many bodies accepted";
pub const LONGEST: &str = "49,152 bytes accepted";
pub const SHORTER: &str = "49,140 bytes accepted";
pub const TOO_LONG: &str = "49,164 bytes, else sound, refused with 1";
pub const LONG_FAULTS: &str = "49,152 bytes with one fault";
pub const CHANGED_WORDS: &str = "words changed at random";
pub const CHANGED_TYPES: &str = "type words, names and leaves changed at random";
pub const CHANGED_RECORDS: &str = "records swapped, dropped or repeated";
pub const RANDOM_RECORDS: &str = "random records";
pub const RANDOM_BYTES: &str = "random bytes";

/// The quotas of the named counts. Where the sheets aim at a code, those that
/// hit it are counted; elsewhere all are.
pub const QUOTAS: [(&str, u64); 23] = [
    (ACCEPTED, 40_000),
    (SHARED, 4_000),
    (SHARED_BY_MORE, 4_000),
    (LABELLED, 5_000),
    (LABELLED_TWICE, 1_000),
    (HEADERS, 10_000),
    (LENGTHS, 70 * 20),
    (PREFIXES, 205),
    (BYTES, 204 * 255),
    (SHAPES, 30),
    (DEPTH_64, 1_000),
    (NESTING_3, 1_000),
    (LEAVES_64, 1_000),
    (BODIES, 1_000),
    (LONGEST, 40),
    (SHORTER, 40),
    (TOO_LONG, 40),
    (LONG_FAULTS, 400),
    (CHANGED_WORDS, 20_000),
    (CHANGED_TYPES, 20_000),
    (CHANGED_RECORDS, 5_000),
    (RANDOM_RECORDS, 20_000),
    (RANDOM_BYTES, 5_000),
];

/// Every two different codes of faults, the lower first.
pub const CODES: [(u8, u8); 21] = {
    let mut codes = [(0, 0); 21];
    let (mut k, mut low) = (0, WRONG_LENGTH);
    while low < ILL_TYPED {
        let mut high = low + 1;
        while high <= ILL_TYPED {
            codes[k] = (low, high);
            k += 1;
            high += 1;
        }
        low += 1;
    }
    codes
};

/// Faults of naming that are like shared patterns: a category of each is to be
/// there.
const LIKE_SHARING: [&str; 10] = [
    "code 4: pattern named by d and next",
    "code 4: pattern named by d and a pair pattern",
    "code 4: pattern named by two nexts",
    "code 4: pattern named by two words of pair patterns",
    "code 4: pattern named by next and a pair pattern",
    "code 4: expression named by two records",
    "code 4: leaf named by two records",
    "code 4: unnamed pattern",
    "code 7: pattern shared by IFs that test two types",
    "code 7: pattern shared by IFs that test two types of one shape",
];

/// Those of which every sheet made is to be accepted.
const ALL_ACCEPTED: [&str; 7] =
    [ACCEPTED, DEPTH_64, NESTING_3, LEAVES_64, BODIES, LONGEST, SHORTER];

const TWO_CODES: &str = "two faults of different codes";

/// The name of the count of sheets with a kind, among those accepted with over
/// 30 records.
pub fn with_kind(kind: u16) -> String {
    format!("kind {kind} in {ACCEPTED}")
}

/// The name of the count of sheets with a fault of a category.
pub fn of_category(category: &Category) -> String {
    format!("code {}: {}", category.code, category.name)
}

/// Adds the sum of the sheets with faults of two codes.
pub fn complete(tally: &mut Tally) {
    let sum = CODES.iter().map(|(low, high)| tally.got(&of_codes(*low, *high))).sum();
    tally.add(TWO_CODES, sum);
}

/// Every quota.
pub fn quotas(categories: &[Category]) -> Vec<Quota> {
    let percent = |name: &str| if ALL_ACCEPTED.contains(&name) { 100 } else { 0 };
    let mut quotas: Vec<Quota> = QUOTAS
        .iter()
        .map(|(name, least)| Quota::of_hundred(*name, *least, percent(name)))
        .collect();
    quotas.push(Quota::new(TWO_CODES, TWO_FAULTS));
    quotas.extend(CODES.map(|(low, high)| Quota::new(of_codes(low, high), PER_TWO_CODES)));
    quotas.extend(KINDS.iter().map(|kind| Quota::new(with_kind(*kind), PER_KIND)));
    let of_categories =
        |category: &Category| Quota::of_hundred(of_category(category), PER_CATEGORY, PERCENT_HIT);
    quotas.extend(categories.iter().map(of_categories));
    for name in LIKE_SHARING {
        if quotas.iter().all(|quota| quota.name != name) {
            quotas.push(Quota::new(name, PER_CATEGORY));
        }
    }
    quotas
}
