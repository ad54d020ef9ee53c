//! Printouts worked out by hand from docs/SHEETS.md, "Listing".

use crate::listing::refusal_line;
use crate::printout::printout;
use crate::samples;

#[test]
fn listings_and_refusals() {
    let text = "type 1\n0: 2\n1: 1\n2: 1\ncycles 3\n";
    let t = samples::t();
    assert!(matches!(printout(&t, &[1, 2, 1]), Ok((found, next)) if found == text && next == t));
    let pairs = printout(&samples::pair_feedback(), &[2]);
    assert!(matches!(pairs, Ok((found, _)) if found == "type 2\n0: 1 1\ncycles 1\n"));
    let none = printout(&t, &[]);
    assert!(matches!(none, Ok((found, next)) if found == "type 1\ncycles 0\n" && next == t));
    let refusals = [(&t[..], &[1, 3][..]), (&t[..], &[1; 65_536]), (&t[1..], &[])];
    let lines = ["refused 9 at 1\n", "refused 8 at 0\n", "refused 1 at 0\n"];
    for ((sheet, stimulus), line) in refusals.into_iter().zip(lines) {
        assert_eq!(printout(sheet, stimulus).map_err(refusal_line).err().as_deref(), Some(line));
    }
}
