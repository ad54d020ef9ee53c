//! Named sheets, sheets of given lengths, and changes of T.

use super::case::Checks;
use super::tally;
use crate::frame::comparison::{self, Ended};
use crate::fuzz;
use crate::random::Random;
use crate::records::{C, RECORD_BYTES};
use crate::samples;
use crate::shapes;

type Comparer<'a> = comparison::Comparer<'a, Checks>;

pub fn named_shapes(to: &mut Comparer) -> Ended {
    for (name, make) in shapes::SMALL.iter().chain(&shapes::LARGE) {
        to.verdict(name, &make())?;
        to.tally.add(tally::SHAPES, 1);
    }
    Ok(())
}

/// Lengths 0 to 64, those around 49,152, and some whose count of records
/// doesn't fit a word.
pub fn lengths(to: &mut Comparer, random: &mut Random) -> Ended {
    let t = samples::t();
    let longest = shapes::named("too-long").unwrap_or_default();
    let around = [49_139, 49_140, 49_141, 49_151, 49_152, 49_153, 49_163, 49_164, 49_165];
    let far = [65_535, 65_536, 98_304, 786_420, 786_432, 786_636];
    for length in (0..=64).chain(around).chain(far) {
        let repeated =
            |sheet: &[u8]| sheet.iter().copied().cycle().take(length).collect::<Vec<u8>>();
        let mut sheets = vec![vec![0; length], vec![255; length], repeated(&t), repeated(&longest)];
        let mut counted = repeated(&longest);
        if length >= RECORD_BYTES {
            let count = (length / RECORD_BYTES) as u16;
            counted[2 * C..2 * C + 2].copy_from_slice(&count.to_le_bytes());
        }
        sheets.push(counted);
        let count = if length > 50_000 { 3 } else { 20 };
        sheets.extend((0..count).map(|_| fuzz::random_bytes(length, random)));
        for sheet in sheets {
            to.verdict("lengths", &sheet)?;
            to.tally.add(tally::LENGTHS, 1);
        }
    }
    Ok(())
}

pub fn prefixes(to: &mut Comparer) -> Ended {
    let t = samples::t();
    for length in 0..=t.len() {
        to.verdict("prefixes of T", &t[..length])?;
        to.tally.add(tally::PREFIXES, 1);
    }
    Ok(())
}

pub fn byte_changes(to: &mut Comparer) -> Ended {
    let mut t = samples::t();
    for at in 0..t.len() {
        let byte = t[at];
        for change in 1..=255 {
            t[at] = byte ^ change;
            to.verdict("single-byte changes of T", &t)?;
            to.tally.add(tally::BYTES, 1);
        }
        t[at] = byte;
    }
    Ok(())
}
