//! Calls with faults: in the sheet, the stimulus or a slice's length.

use super::case::Case;
use super::cases::{few_cycles, good, Frame};
use super::tally;
use crate::answers::{
    ILL_TYPED, WRONG_INPUT, WRONG_LENGTH, WRONG_NEXT_LENGTH, WRONG_OUTPUT_LENGTH, WRONG_STIMULUS,
};
use crate::draft::Draft;
use crate::faults::category::{faulty, Category};
use crate::fuzz;
use crate::generate::mixed::for_faults;
use crate::layout::sheet;
use crate::random::Random;
use crate::records::{MAX_RECORDS, RECORD_BYTES};
use crate::stimulus::LONGEST_STIMULUS;

/// A call of some cycles that keeps every rule, for faults to be put into.
fn whole_call(draft: &Draft, random: &mut Random) -> Option<(Case, Frame)> {
    let sheet = sheet(draft, random);
    let frame = Frame::of(&sheet)?;
    let cycles = few_cycles(random).max(1);
    Some((good("one call", sheet, &frame, cycles, random), frame))
}

/// A call with faults of some codes; the ways in which those from 8 on were
/// made. The faults of higher codes are made first.
pub fn broken(
    codes: &[u8],
    categories: &[Category],
    random: &mut Random,
) -> Option<(Case, Vec<&'static str>)> {
    let draft = for_faults(random);
    let (mut case, frame) = whole_call(&draft, random)?;
    for &code in codes.iter().filter(|&&code| code <= ILL_TYPED) {
        let (name, sheet) = break_sheet(&draft, code, categories, random)?;
        case.next_length = sheet.len();
        case.sheet = sheet;
        case.source = name;
    }
    let mut ways = Vec::new();
    let about_call = [WRONG_INPUT, WRONG_STIMULUS, WRONG_OUTPUT_LENGTH, WRONG_NEXT_LENGTH];
    for code in about_call.into_iter().filter(|code| codes.contains(code)) {
        let way = break_call(&mut case, code, &frame, random)?;
        case.source = format!("{}; {way}", case.source);
        ways.push(way);
    }
    Some((case, ways))
}

/// A sheet of a circuit, broken in one way of a code from 1 to 7; none if the
/// circuit has no place for it.
pub fn break_sheet(
    draft: &Draft,
    code: u8,
    categories: &[Category],
    random: &mut Random,
) -> Option<(String, Vec<u8>)> {
    if code == WRONG_LENGTH {
        return Some(("length".to_string(), of_wrong_length(sheet(draft, random), random)));
    }
    let of_code: Vec<&Category> = categories.iter().filter(|c| c.code == code).collect();
    let category = random.pick(&of_code)?;
    Some((category.name.clone(), faulty(draft, &[category], random)?))
}

/// Code 1: too short, too long, or no multiple of 12.
fn of_wrong_length(mut sheet: Vec<u8>, random: &mut Random) -> Vec<u8> {
    match random.below(8) {
        0 => sheet.truncate(random.below(RECORD_BYTES)),
        1 => sheet.resize(RECORD_BYTES * random.range(MAX_RECORDS + 1, MAX_RECORDS + 99), 0),
        2 => {
            let more = random.range(1, 11);
            sheet.extend(fuzz::random_bytes(more, random));
        }
        _ => sheet.truncate(sheet.len() - random.range(1, 11)),
    }
    sheet
}

/// Breaks a call in one way of a code from 8 to 11; the way, none if the call
/// has no place for it. A byte that breaks rule 9 stays.
pub fn break_call(
    case: &mut Case,
    code: u8,
    frame: &Frame,
    random: &mut Random,
) -> Option<&'static str> {
    match code {
        WRONG_STIMULUS => break_stimulus(case, frame, random),
        WRONG_INPUT => break_bytes(case, frame, random),
        WRONG_OUTPUT_LENGTH if without_cycles(case, frame, random) => {
            case.output_length = random.pick(&[1, frame.output, frame.output + 1])?;
            Some(tally::OUT_OF_NO_CYCLES)
        }
        WRONG_OUTPUT_LENGTH => {
            let (given, way) = other_length(case.output_length, frame.output, random);
            case.output_length = given;
            Some([tally::OUT_NONE, tally::OUT_SHORTER, tally::OUT_LONGER][way])
        }
        _ => {
            let none = without_cycles(case, frame, random);
            let (given, way) = other_length(case.next_length, RECORD_BYTES, random);
            case.next_length = given;
            let ways = [tally::NEXT_NONE, tally::NEXT_SHORTER, tally::NEXT_LONGER];
            Some(if none { tally::NEXT_OF_NO_CYCLES } else { ways[way] })
        }
    }
}

/// Takes all cycles out of one call in four, if it keeps the rules 8 to 10.
fn without_cycles(case: &mut Case, frame: &Frame, random: &mut Random) -> bool {
    let leaves = frame.counts.len();
    let cycles = case.stimulus.len() / leaves;
    let keeps = case.stimulus.len() <= LONGEST_STIMULUS
        && case.stimulus.len() == cycles * leaves
        && case.stimulus.iter().zip(frame.counts.iter().cycle()).all(|(byte, count)| byte <= count)
        && case.output_length == cycles * frame.output;
    let taken = keeps && random.one_in(4);
    if taken {
        case.stimulus.clear();
        case.output_length = 0;
    }
    taken
}

/// A length other than the one needed, which is not 0: 0, shorter or longer
/// by one byte, by a step, or by any number.
fn other_length(needed: usize, step: usize, random: &mut Random) -> (usize, usize) {
    let by = match random.below(3) {
        0 => 1,
        1 => step,
        _ => random.range(1, 4 * needed + 100),
    };
    match random.below(3) {
        1 if by < needed => (needed - by, 1),
        2 => (needed + by, 2),
        _ => (0, 0),
    }
}

/// Code 8: too long or not whole cycles. The output slice is as long as
/// the cycles ask for, where there are whole cycles and not very many.
fn break_stimulus(case: &mut Case, frame: &Frame, random: &mut Random) -> Option<&'static str> {
    let leaves = frame.counts.len();
    let longer = |stimulus: &mut Vec<u8>, length: usize| {
        let good = (0..length).map(|k| frame.counts[k % leaves]);
        let present = stimulus.len();
        stimulus.extend(good.skip(present));
    };
    match random.below(2) {
        0 => {
            let cycles = LONGEST_STIMULUS / leaves + random.range(1, 2);
            longer(&mut case.stimulus, cycles * leaves);
            case.output_length = (cycles * frame.output).min(1 << 17);
            Some(tally::OVER)
        }
        _ if leaves > 1 => {
            let length = case.stimulus.len() + random.range(1, leaves - 1);
            longer(&mut case.stimulus, length);
            Some(tally::NOT_WHOLE)
        }
        _ => None,
    }
}

/// Code 9: one byte or some, at the first place, the last or any.
fn break_bytes(case: &mut Case, frame: &Frame, random: &mut Random) -> Option<&'static str> {
    let leaves = frame.counts.len();
    let breakable: Vec<usize> =
        (0..case.stimulus.len()).filter(|k| frame.counts[k % leaves] < 255).collect();
    let several = random.one_in(2);
    let times = if several { random.range(2, 5) } else { 1 };
    for _ in 0..times {
        raise_byte(&mut case.stimulus, &frame.counts, &breakable, random)?;
    }
    Some(if several { tally::SOME_ABOVE } else { tally::ABOVE })
}

/// Raises the first byte of some places, the last or any above its leaf's
/// count; none if there is no place.
pub fn raise_byte(
    stimulus: &mut [u8],
    counts: &[u8],
    places: &[usize],
    random: &mut Random,
) -> Option<()> {
    let place = match random.below(6) {
        0 => places.first().copied()?,
        1 => places.last().copied()?,
        _ => random.pick(places)?,
    };
    let above = usize::from(counts[place % counts.len()]) + 1;
    stimulus[place] = match random.below(3) {
        0 => above as u8,
        1 => 255,
        _ => random.range(above, 255) as u8,
    };
    Some(())
}
