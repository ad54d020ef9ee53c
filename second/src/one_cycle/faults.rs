//! Calls with faults: in the sheet, the stimulus or the slice's length.

use super::cases::Ground;
use super::kind::{Case, Kind};
use super::tally;
use crate::answers::{ILL_TYPED, WRONG_INPUT, WRONG_STIMULUS};
use crate::calls::runs::faults::{break_sheet, raise_byte};
use crate::faults::category::Category;
use crate::generate::mixed::for_faults;
use crate::layout::sheet;
use crate::random::Random;
use crate::stimulus::LONGEST_STIMULUS;

/// A call with faults of some codes; the ways in which those from 8 on were
/// made. None if the circuit has no place for a fault.
pub fn broken<K: Kind>(
    codes: &[u8],
    categories: &[Category],
    random: &mut Random,
) -> Option<(Case, Vec<&'static str>)> {
    let draft = for_faults(random);
    let whole = sheet(&draft, random);
    let ground = Ground::of::<K>(&whole)?;
    let mut case = ground.good("one call", whole, random);
    for &code in codes.iter().filter(|&&code| code <= ILL_TYPED) {
        (case.source, case.sheet) = break_sheet(&draft, code, categories, random)?;
    }
    let mut ways = Vec::new();
    // The stimulus gets its length first, and then bytes that are too great.
    for &code in codes.iter().filter(|&&code| code > ILL_TYPED) {
        ways.push(break_call(&mut case, code, &ground, random)?);
    }
    Some((case, ways))
}

/// Breaks a call in one way of code 8, of 9 or of that for a slice of the wrong
/// length; the way, none if the call has no place for it.
pub fn break_call(
    case: &mut Case,
    code: u8,
    ground: &Ground,
    random: &mut Random,
) -> Option<&'static str> {
    let way = match code {
        WRONG_STIMULUS => break_stimulus(case, ground, random)?,
        WRONG_INPUT => raise_bytes(&mut case.stimulus, ground, random)?,
        _ => break_length(case, ground, random)?,
    };
    case.source = format!("{}; {way}", case.source);
    Some(way)
}

/// Code 8: not exactly one cycle. The slice is as long as one cycle asks for,
/// or as so many cycles.
fn break_stimulus(case: &mut Case, ground: &Ground, random: &mut Random) -> Option<&'static str> {
    let (way, stimulus) = other_cycles(ground, random)?;
    case.stimulus = stimulus;
    if random.one_in(2) {
        let cycles = case.stimulus.len() / ground.counts.len();
        case.slice_length = (cycles * ground.items).min(1 << 16);
    }
    Some(way)
}

/// A stimulus that is not exactly one cycle, and its way.
pub fn other_cycles(ground: &Ground, random: &mut Random) -> Option<(&'static str, Vec<u8>)> {
    let leaves = ground.counts.len();
    let way = random.pick(tally::ways(WRONG_STIMULUS))?;
    let length = match way {
        tally::EMPTY => 0,
        tally::PART => random.range(1, leaves.checked_sub(1).filter(|&most| most > 0)?),
        tally::TWO => 2 * leaves,
        tally::MORE if random.one_in(20) => LONGEST_STIMULUS / leaves * leaves,
        tally::MORE => leaves * random.range(3, 9),
        tally::NOT_WHOLE => {
            leaves + random.range(1, leaves.checked_sub(1).filter(|&most| most > 0)?)
        }
        _ => LONGEST_STIMULUS + random.range(1, 2 * leaves),
    };
    let mut stimulus = ground.stimulus(length / leaves + 1, random);
    stimulus.truncate(length);
    Some((way, stimulus))
}

/// Code 9: one byte or some, at the first place, the last or any; the way.
pub fn raise_bytes(
    stimulus: &mut [u8],
    ground: &Ground,
    random: &mut Random,
) -> Option<&'static str> {
    let leaves = ground.counts.len();
    let breakable: Vec<usize> =
        (0..stimulus.len()).filter(|k| ground.counts[k % leaves] < 255).collect();
    let several = breakable.len() > 1 && random.one_in(2);
    let times = if several { random.range(2, 5) } else { 1 };
    for _ in 0..times {
        raise_byte(stimulus, &ground.counts, &breakable, random)?;
    }
    Some(if several { tally::SOME_ABOVE } else { tally::ABOVE })
}

/// The slice's length is another one than one cycle asks for.
fn break_length(case: &mut Case, ground: &Ground, random: &mut Random) -> Option<&'static str> {
    let needed = ground.items;
    let by = if random.one_in(2) { 1 } else { random.range(1, 2 * needed) };
    let way = random.pick(tally::ways(u8::MAX))?;
    let length = match way {
        tally::NONE => 0,
        tally::SHORTER => needed.checked_sub(by)?,
        tally::LONGER => needed + by,
        tally::OF_INPUT => ground.counts.len(),
        _ => 2 * needed,
    };
    if length == needed {
        return None;
    }
    case.slice_length = length;
    Some(way)
}
