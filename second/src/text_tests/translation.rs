//! Codes 0 and 15, and the records of a text.

use super::expected::{answer, has_records, records, BIT, LONG, TWO};
use crate::records::{bytes, A, B, FLAT, KIND};
use crate::text::translator::translate;
use crate::verdict::check;

/// T, with the pattern of an IF after its branches.
const T: &str = "TYPE bit = hi | lo IN INPUT bit
    (LET INIT ?bit REC x =
        (DELAY (lo, (IF input MATCHES hi THEN (IF x MATCHES lo THEN hi ELSE lo) ELSE x)))
     IN x)";

const T_RECORDS: [&[u16]; 17] = [
    &[1, 1, 1, 2],
    &[16, 0, 2],
    &[38, 0, 1, 3, 16],
    &[40, 0, 1, 4, 5],
    &[64, 0, 2],
    &[39, 0, 6, 7, 14, 15],
    &[33, 0, 1],
    &[39, 0, 8, 9, 11, 13],
    &[33],
    &[32, 0, 1, 10],
    &[64, 0, 1],
    &[32, 0, 1, 12],
    &[64, 0, 2],
    &[49, 0, 1, 2],
    &[33],
    &[49, 0, 1, 1],
    &[33],
];

#[test]
fn reading_13_order_of_records() {
    has_records(T, &T_RECORDS);
    has_records(
        &format!("{TWO}(IF input MATCHES (hi, hi) THEN hi ELSE lo)"),
        &[
            &[1, 1, 2, 3],
            &[16, 2, 2],
            &[17, 0, 1, 1],
            &[39, 0, 4, 5, 7, 9],
            &[33],
            &[32, 0, 1, 6],
            &[64, 0, 1],
            &[32, 0, 1, 8],
            &[64, 0, 2],
            &[50, 0, 10, 11],
            &[49, 0, 1, 1],
            &[49, 0, 1, 1],
        ],
    );
    // Part a with its chain, part b with its chain, then the next alternative.
    has_records(
        &format!("{TWO}(IF input MATCHES (hi|lo, bit|lo)|two THEN input ELSE input)"),
        &[
            &[1, 1, 2, 3],
            &[16, 2, 2],
            &[17, 0, 1, 1],
            &[39, 0, 4, 5, 6, 7],
            &[33],
            &[33],
            &[33],
            &[50, 12, 8, 10],
            &[49, 9, 1, 1],
            &[49, 0, 1, 2],
            &[48, 11, 1],
            &[49, 0, 1, 2],
            &[48, 0, 2],
        ],
    );
}

#[test]
fn reading_13_parts_and_names() {
    // The second part of the first part.
    has_records(
        &format!("{BIT}input[1][2]"),
        &[&[1, 1, 1, 2], &[16, 0, 2], &[36, 0, 3], &[35, 0, 4], &[33]],
    );
    has_records(
        &format!("{BIT}(LET x = input IN (x, (LET y = x IN (input, y))))"),
        &[
            &[1, 1, 1, 2],
            &[16, 0, 2],
            &[37, 0, 3, 4],
            &[33],
            &[34, 0, 5, 6],
            &[33],
            &[37, 0, 7, 8],
            &[33],
            &[34, 0, 9, 10],
            &[33, 0, 2],
            &[33],
        ],
    );
    // The nearer name hides the farther; a LET's defining part sees the farther.
    has_records(
        &format!("{BIT}(LET x = hi IN (LET y = lo IN (LET x = x IN x)))"),
        &[
            &[1, 1, 1, 2],
            &[16, 0, 2],
            &[37, 0, 3, 5],
            &[32, 0, 1, 4],
            &[64, 0, 1],
            &[37, 0, 6, 8],
            &[32, 0, 1, 7],
            &[64, 0, 2],
            &[37, 0, 9, 10],
            &[33, 0, 1],
            &[33],
        ],
    );
}

/// A delay's leaves and then its part; (hi, lo) outside is a pair expression.
#[test]
fn reading_13_delays() {
    has_records(
        &format!("{TWO}(DELAY ((hi, ?bit), (lo, hi)))"),
        &[
            &[1, 1, 2, 3],
            &[16, 2, 2],
            &[17, 0, 1, 1],
            &[40, 0, 2, 4, 6],
            &[64, 5, 1],
            &[64],
            &[34, 0, 7, 9],
            &[32, 0, 1, 8],
            &[64, 0, 2],
            &[32, 0, 1, 10],
            &[64, 0, 1],
        ],
    );
}

/// Types t, each a pair of the one before: 2, 4, .. leaves, the last of 128;
/// and one of 65.
const DOUBLED: &str = "TYPE bit = hi | lo IN TYPE a = (bit, bit) IN TYPE b = (a, a) IN
    TYPE c = (b, b) IN TYPE d = (c, c) IN TYPE e = (d, d) IN TYPE f = (e, e) IN
    TYPE g = (f, f) IN TYPE more = (f, bit) IN INPUT bit ";

#[test]
fn reading_14_leaves() {
    // Header, 9 types, the constant or delay, its leaves, the delayed name.
    let count = |expression: &str| records(&format!("{DOUBLED}{expression}")).len();
    assert_eq!(count("? bit"), 1 + 9 + 1 + 1);
    assert_eq!(count("? b"), 1 + 9 + 1 + 4);
    assert_eq!(count("? f"), 1 + 9 + 1 + 64);
    assert_eq!(count("? g"), 1 + 9 + 1 + 64);
    assert_eq!(count("? more"), 1 + 9 + 1 + 64);
    assert_eq!(count("(DELAY (?more, input))"), 1 + 9 + 1 + 64 + 1);
    assert_eq!(count("(DELAY ((?f, ?f), input))"), 1 + 9 + 1 + 128 + 1);
    assert_eq!(count("(DELAY ((?f, hi), input))"), 1 + 9 + 1 + 65 + 1);
    let sheet = bytes(&records(&format!("{DOUBLED}?more")));
    assert_eq!((check(&sheet).code, check(&sheet).place), (5, 8));
}

#[test]
fn reading_15_lengths() {
    for length in [0, 1, 192, 203] {
        assert_eq!(answer(T.as_bytes(), length), (15, 204));
        assert!(translate(T.as_bytes(), length).written.is_empty());
    }
    assert_eq!(answer(T.as_bytes(), 204), (0, 204));
    let longer = translate(T.as_bytes(), 300);
    assert_eq!((longer.answer.code, longer.answer.place, longer.written.len()), (0, 204, 300));
    assert!(longer.written[204..].iter().all(|&byte| byte == 0));
    // Header, type, IF and three names are 6 records.
    let chain = |alternatives: usize| {
        let chain = vec!["hi"; alternatives].join("|");
        format!("{BIT}(IF input MATCHES {chain} THEN input ELSE input)").into_bytes()
    };
    assert_eq!(answer(&chain(4090), 49_152), (0, 49_152));
    assert_eq!(answer(&chain(4090), 49_151), (15, 49_152));
    for length in [0, 49_152, 49_164, 100_000] {
        assert_eq!(answer(&chain(4091), length), (15, 49_164));
        assert_eq!(answer(&chain(9994), length), (15, 120_000));
    }
    // 13 and 14 come before 15.
    assert_eq!(answer(b"TYPE bit = hi IN INPUT bit lo", 0), (14, 27));
    assert_eq!(answer(b"TYPE bit = hi IN INPUT bit )", 0), (13, 27));
}

/// The code and place of the check for a text's sheet.
fn checked(text: &str) -> (u8, u32) {
    let found = check(&bytes(&records(text)));
    (found.code, found.place)
}

#[test]
fn reading_16_what_the_check_refuses() {
    assert_eq!(checked(T), (0, 1));
    let names: Vec<String> = (0..300).map(|k| format!("c{}", letters(k))).collect();
    let many = format!("TYPE many = {} IN INPUT many c{}", names.join("|"), letters(299));
    let found = records(&many);
    assert_eq!((found[1][KIND], found[1][A]), (FLAT, 300));
    assert_eq!((found[2][B], found[3][A]), (3, 300));
    assert_eq!(checked(&many), (3, 1));
    let twice = "TYPE bit = hi IN TYPE a = (bit, bit) IN TYPE b = (bit, bit) IN INPUT bit hi";
    assert_eq!(checked(twice), (5, 3));
    assert_eq!(checked(&format!("{BIT}input[1]")), (7, 2));
    let nested = |open: &str, depth: usize, close: &str| {
        format!("{BIT}{}hi{}", open.repeat(depth), close.repeat(depth))
    };
    assert_eq!(checked(&nested("(LET x = hi IN ", 63, ")")), (0, 1));
    assert_eq!(checked(&nested("(LET x = hi IN ", 64, ")")).0, 6);
    assert_eq!(checked(&nested("(LET INIT ?bit REC x = ", 3, " IN x)")), (0, 1));
    assert_eq!(checked(&nested("(LET INIT ?bit REC x = ", 4, " IN x)")).0, 6);
}

/// A number in two letters.
fn letters(number: usize) -> String {
    [number / 26, number % 26].iter().map(|&digit| char::from(b'a' + digit as u8)).collect()
}

/// Brackets as deep as a text can have them, and parts in a long row.
#[test]
fn deep_texts() {
    let pairs = format!("{BIT}{}hi{}", "(hi,".repeat(9_000), ")".repeat(9_000));
    assert_eq!(answer(pairs.as_bytes(), LONG), (15, 12 * (2 + 9_000 + 9_001 * 2)));
    let row = format!("{BIT}hi{}", "[1]".repeat(21_000));
    assert_eq!(answer(row.as_bytes(), LONG), (15, 12 * (2 + 21_000 + 2)));
    let constants = format!("{BIT}(DELAY({}hi{},hi))", "(hi,".repeat(9_000), ")".repeat(9_000));
    assert_eq!(answer(constants.as_bytes(), LONG), (14, BIT.len() as u32 + 7));
    let patterns = format!(
        "{BIT}(IF hi MATCHES {}hi{} THEN hi ELSE hi)",
        "(hi,".repeat(9_000),
        ")".repeat(9_000)
    );
    assert_eq!(answer(patterns.as_bytes(), LONG), (15, 12 * (2 + 1 + 6 + 9_000 + 9_001)));
}
