//! Code 14.

use super::expected::{refused, translated, BIT, TWO};

/// A name of a whole text is bad at the mark.
fn bad(marked: &str) {
    refused(14, marked);
}

/// The same in an expression, after a type and the input.
fn bad_in(marked: &str) {
    bad(&format!("{BIT}{marked}"));
}

fn good_in(expression: &str) {
    translated(&format!("{BIT}{expression}"));
}

#[test]
fn reading_8_by_place() {
    bad("TYPE bit = hi | @hi IN INPUT nope nope");
    bad("TYPE bit = hi IN INPUT @nope nope");
    bad_in("(LET INIT ? @nope REC hi = nope IN nope)");
    bad_in("(LET INIT ? bit REC @hi = nope IN nope)");
    bad_in("(LET @hi = nope IN nope)");
    bad_in("(IF @nope MATCHES nope THEN nope ELSE nope)");
    bad_in("(IF hi MATCHES @nope THEN nope ELSE nope)");
    bad_in("(IF hi MATCHES (hi, lo|@nope) | nope THEN nope ELSE nope)");
    bad_in("(IF hi MATCHES hi THEN @nope ELSE nope)");
    bad_in("(DELAY ((hi, @nope), nope))");
    // A pair without a type does not count before a name.
    bad_in("((DELAY ((hi, lo), input)), @nope)");
}

#[test]
fn reading_9_declared_once() {
    bad("TYPE bit = hi IN TYPE @bit = lo IN INPUT bit hi");
    bad("TYPE bit = hi IN TYPE @bit = (bit, bit) IN INPUT bit hi");
    bad("TYPE bit = hi IN TYPE @hi = lo IN INPUT bit hi");
    bad("TYPE bit = @bit IN INPUT bit hi");
    bad("TYPE bit = hi | lo | @bit IN INPUT bit hi");
    bad("TYPE bit = hi IN TYPE other = lo | @bit IN INPUT bit hi");
    bad("TYPE bit = hi IN TYPE other = @hi IN INPUT bit hi");
    bad("TYPE @input = hi IN INPUT input hi");
    bad("TYPE bit = hi | @input IN INPUT bit hi");
    for name in ["bit", "lo", "input"] {
        bad_in(&format!("(LET @{name} = hi IN hi)"));
        bad_in(&format!("(LET INIT ?bit REC @{name} = hi IN hi)"));
    }
}

#[test]
fn reading_9_scopes() {
    good_in("(LET x = hi IN (LET x = lo IN x))");
    good_in("(LET x = hi IN (LET x = x IN x))");
    bad_in("(LET x = @x IN x)");
    bad_in("(LET x = (LET y = hi IN (y, @x)) IN x)");
    bad_in("((LET x = hi IN x), @x)");
    bad_in("(@x, (LET x = hi IN x))");
    good_in("(LET INIT ?bit REC x = x IN x)");
    bad_in("((LET INIT ?bit REC x = x IN x), @x)");
    bad_in("(LET INIT ?bit REC x = (x, @z) IN x)");
    bad_in("(LET x = hi IN (LET INIT ?bit REC y = (x, y) IN (x, @z)))");
}

#[test]
fn reading_10_declared_from_in_on() {
    bad("TYPE a = b IN TYPE c = (a, @c) IN INPUT a b");
    bad("TYPE a = b IN TYPE c = (@c, a) IN INPUT a b");
    bad("TYPE c = (@d, d) IN TYPE d = e IN INPUT d e");
    translated("TYPE d = e IN TYPE c = (d, d) IN INPUT c e");
}

#[test]
fn reading_11_kinds() {
    bad_in("?@hi");
    bad_in("? @input");
    bad_in("? @nope");
    bad_in("(LET x = hi IN ? @x)");
    bad_in("(LET INIT ? @hi REC x = x IN x)");
    bad("TYPE bit = hi IN INPUT @hi hi");
    bad("TYPE bit = hi IN INPUT @input hi");
    bad("TYPE bit = hi IN TYPE two = (bit, @hi) IN INPUT bit hi");
    bad("TYPE bit = hi IN TYPE two = (@input, bit) IN INPUT bit hi");
    bad_in("(DELAY (@bit, input))");
    bad_in("(DELAY (@input, input))");
    bad_in("(DELAY (? @hi, input))");
    bad_in("(LET x = hi IN (DELAY (@x, x)))");
    bad_in("(IF input MATCHES @input THEN hi ELSE lo)");
    bad_in("(LET x = hi IN (IF input MATCHES @x THEN hi ELSE lo))");
    bad_in("(IF input MATCHES @nope THEN hi ELSE lo)");
    bad_in("@bit");
    bad_in("@nope");
    good_in("(IF input MATCHES bit|hi THEN (DELAY (hi, ?bit)) ELSE input)");
}

#[test]
fn reading_12_constant_pairs() {
    bad_in("(DELAY (@(hi, lo), input))");
    bad_in("(DELAY ( @( ( hi , lo ) , hi ) , input))");
    translated(&format!("{TWO}(DELAY ((hi, lo), input))"));
    // The inner pair has a type, the outer has none.
    let outer = "(DELAY (@((hi, lo), hi), input))";
    bad(&format!("{TWO}{outer}"));
    bad(&format!("{TWO}((DELAY ((hi, lo), input)), {outer})"));
    // The first in the text, whether outside or before.
    bad_in("(DELAY (@(hi, hi), (DELAY ((lo, lo), input))))");
    bad_in("((DELAY (@(hi, hi), input)), (DELAY ((lo, lo), input)))");
    // The first declared pair type of the parts; an undefined part keeps its own.
    let types = "TYPE bit = hi | lo IN TYPE two = (bit, bit) IN TYPE again = (bit, bit) IN ";
    let first = format!("{types}TYPE four = (two, two) IN INPUT bit ");
    translated(&format!("{first}(DELAY (((hi, lo), ?two), input))"));
    bad(&format!("{first}(DELAY (@((hi, lo), ?again), input))"));
    let again = format!("{types}TYPE four = (again, two) IN INPUT bit ");
    translated(&format!("{again}(DELAY ((?again, (hi, lo)), input))"));
    bad(&format!("{again}(DELAY (@((hi, lo), (hi, lo)), input))"));
}
