//! Outputs of texts by the rules of 001, and by a run of their sheets.

use super::expected::{records, BIT, TWO};
use crate::records::bytes;
use crate::rule::{Rule, IN_FORCE};
use crate::simulator::{ready, run, Call};
use crate::text::text_meaning::outputs;
use crate::text::translator::syntax;

/// The outputs of a text, by one rule for undecided IFs.
fn meant(text: &str, leaves: usize, stimulus: &[u8], rule: Rule) -> Vec<u8> {
    let Ok(syntax) = syntax(text.as_bytes()) else { panic!("{text}") };
    outputs(&syntax, stimulus.chunks_exact(leaves), rule).concat()
}

/// The outputs of a run of a text's sheet.
fn ran(text: &str, stimulus: &[u8]) -> Vec<u8> {
    let sheet = bytes(&records(text));
    let Ok(ready) = ready(&sheet, stimulus) else { panic!("{text}") };
    let lengths = (ready.output_length, sheet.len());
    let call = Call { sheet: &sheet, stimulus, output_length: lengths.0, next_length: lengths.1 };
    run(&call).outputs.unwrap_or_default()
}

/// Outputs by the rule in force: the meaning's and the run's.
fn gives(text: &str, leaves: usize, stimulus: &[u8], expected: &[u8]) {
    assert_eq!(meant(text, leaves, stimulus, IN_FORCE), expected, "{text}");
    assert_eq!(ran(text, stimulus), expected, "{text}");
}

#[test]
fn t_and_parity() {
    let t = format!(
        "{BIT}(LET INIT ?bit REC x =
            (DELAY (lo, (IF input MATCHES hi THEN (IF x MATCHES lo THEN hi ELSE lo) ELSE x)))
         IN x)"
    );
    gives(&t, 1, &[1, 2, 1], &[2, 1, 1]);
    gives(&t, 1, &[2, 0, 1, 2], &[2, 2, 0, 0]);
    // The parity checker of 001: hi after an even number of hi, and at first.
    let parity = "TYPE bit = hi | lo IN TYPE two = (bit, bit) IN INPUT bit
        (LET INIT ?bit REC xor =
            (DELAY (hi, (IF (input, xor) MATCHES (hi,lo)|(lo,hi) THEN hi ELSE lo)))
         IN xor)";
    gives(parity, 1, &[1, 1, 2, 1], &[1, 2, 1, 1]);
}

#[test]
fn bench_cases() {
    let and = format!("{TWO}(IF input MATCHES (hi, hi) THEN hi ELSE lo)");
    gives(&and, 2, &[2, 0, 1, 0, 1, 1], &[2, 0, 1]);
    let either = format!("{BIT}(IF input MATCHES hi|lo THEN hi ELSE hi)");
    gives(&either, 1, &[0, 1, 2], &[1, 1, 1]);
    let other = format!("{BIT}(IF input MATCHES hi|lo THEN hi ELSE lo)");
    gives(&other, 1, &[0, 1, 2], &[0, 1, 1]);
    let whole = format!("{BIT}(IF input MATCHES hi|bit THEN hi ELSE lo)");
    gives(&whole, 1, &[0, 1, 2], &[1, 1, 1]);
    let not = "(LET INIT ?bit REC x = (IF x MATCHES hi THEN lo ELSE hi) IN x)";
    gives(&format!("{BIT}{not}"), 1, &[0, 1, 2], &[0, 0, 0]);
    gives(&format!("{BIT}(LET INIT ?bit REC x = x IN x)"), 1, &[1], &[0]);
    gives(&format!("{TWO}(LET INIT ?two REC x = (hi, x[1]) IN x)"), 2, &[0, 0], &[1, 1]);
    let pairs = format!("{TWO}(IF input MATCHES (hi,hi)|(lo,lo) THEN hi ELSE lo)");
    gives(&pairs, 2, &[0, 0, 1, 2, 2, 2], &[0, 2, 1]);
}

#[test]
fn names_and_parts() {
    gives(&format!("{BIT}(LET x = hi IN (LET x = lo IN x))"), 1, &[1], &[2]);
    let not = "(LET x = input IN (LET x = (IF x MATCHES hi THEN lo ELSE hi) IN x))";
    gives(&format!("{BIT}{not}"), 1, &[1, 2, 0], &[2, 1, 0]);
    gives(&format!("{TWO}(input[2], input[1])"), 2, &[1, 2, 0, 1], &[2, 1, 1, 0]);
    gives(&format!("{TWO}?two"), 2, &[1, 1], &[0, 0]);
    // The name of a LET REC is the nearer one in both parts.
    let inner = "(LET x = hi IN (LET INIT ?bit REC x = x IN x))";
    gives(&format!("{BIT}{inner}"), 1, &[1], &[0]);
}

#[test]
fn delays() {
    let both = "TYPE tri = a | b | c IN INPUT tri
        (IF input MATCHES a THEN (DELAY (b, input)) ELSE (DELAY (c, input)))";
    gives(both, 1, &[1, 2, 1, 0, 3], &[2, 1, 2, 1, 0]);
    let twice = "(LET INIT ?two REC x = ((DELAY (hi, (DELAY (lo, x[2])))), input[1]) IN x)";
    gives(&format!("{TWO}{twice}"), 2, &[1, 0, 1, 0, 2, 0], &[1, 1, 2, 1, 1, 2]);
}

#[test]
fn undecided_but_agreed() {
    let earlier = |text: &str, stimulus: &[u8]| meant(text, 1, stimulus, Rule::Earlier);
    let same = format!("{BIT}(IF input MATCHES hi THEN lo ELSE lo)");
    gives(&same, 1, &[0, 1], &[2, 2]);
    assert_eq!(earlier(&same, &[0, 1]), [0, 2]);
    let pairs = "TYPE bit = hi | lo IN TYPE two = (bit, bit) IN INPUT bit
        (IF input MATCHES hi THEN (hi, lo) ELSE (hi, hi))";
    gives(pairs, 1, &[0, 1, 2], &[1, 0, 1, 2, 1, 1]);
    assert_eq!(earlier(pairs, &[0, 1, 2]), [0, 0, 1, 2, 1, 1]);
    // Inside a feedback too: from undefined both branches give lo.
    let fed = format!("{BIT}(LET INIT ?bit REC x = (IF x MATCHES hi THEN lo ELSE lo) IN x)");
    gives(&fed, 1, &[1], &[2]);
    assert_eq!(earlier(&fed, &[1]), [0]);
    let undefined = format!("{BIT}(IF input MATCHES hi THEN ?bit ELSE hi)");
    gives(&undefined, 1, &[0, 1, 2], &[0, 0, 1]);
}
