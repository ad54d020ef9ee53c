//! The calls that need a simulator.

use second::answers::{Answer, ACCEPTED, WRONG_OUTPUT_LENGTH};

/// The most leaves of a type.
const MOST_LEAVES: usize = 64;

/// What `sheet_press` returns.
#[cfg(call_press)]
#[repr(C)]
struct Pressed {
    result: u64,
    found: u64,
    leaf: u64,
    constructor: u64,
}

extern "C" {
    fn sheet_run(
        sheet: *const u8,
        sheet_length: usize,
        stimulus: *const u8,
        stimulus_length: usize,
        outputs: *mut u8,
        output_length: usize,
        next: *mut u8,
        next_length: usize,
    ) -> u64;
    fn sheet_fired(
        sheet: *const u8,
        sheet_length: usize,
        stimulus: *const u8,
        stimulus_length: usize,
        fired: *mut u16,
        fired_length: usize,
    ) -> u64;
    fn sheet_preview(
        sheet: *const u8,
        sheet_length: usize,
        stimulus: *const u8,
        stimulus_length: usize,
        outputs: *mut u8,
        output_length: usize,
    ) -> u64;
    fn sheet_carry(
        old: *const u8,
        old_length: usize,
        new: *const u8,
        new_length: usize,
        next: *mut u8,
        next_length: usize,
    ) -> u64;
}

#[cfg(call_possible)]
extern "C" {
    fn sheet_possible(
        sheet: *const u8,
        sheet_length: usize,
        stimulus: *const u8,
        stimulus_length: usize,
        counts: *mut u8,
        count_length: usize,
    ) -> u64;
}

#[cfg(call_press)]
extern "C" {
    fn sheet_press(
        sheet: *const u8,
        sheet_length: usize,
        stimulus: *const u8,
        stimulus_length: usize,
        leaf: usize,
    ) -> Pressed;
}

/// What `sheet_count` returns.
#[cfg(call_count)]
#[repr(C)]
struct Counts {
    result: u64,
    counters: [u32; 256],
}

#[cfg(call_count)]
extern "C" {
    fn sheet_count(sheet: *const u8, sheet_length: usize, leaf: usize) -> Counts;
}

/// What `sheet_replay` returns.
#[cfg(call_replay)]
#[repr(C)]
struct Replayed {
    result: u64,
    differs: u64,
    cycle: u64,
    leaf: u64,
}

#[cfg(call_replay)]
extern "C" {
    fn sheet_replay(
        sheet: *const u8,
        sheet_length: usize,
        stimulus: *const u8,
        stimulus_length: usize,
        recorded: *const u8,
        recorded_length: usize,
        next: *mut u8,
        next_length: usize,
    ) -> Replayed;
}

// Below, every slice is valid for its length, and none overlaps another.

/// The outputs of a run, and the sheet after it.
pub fn run(
    sheet: &[u8],
    stimulus: &[u8],
    output_length: usize,
) -> Result<(Vec<u8>, Vec<u8>), Answer> {
    let (mut outputs, mut next) = (vec![0; output_length], vec![0; sheet.len()]);
    let answer = Answer::unpacked(unsafe {
        sheet_run(
            sheet.as_ptr(),
            sheet.len(),
            stimulus.as_ptr(),
            stimulus.len(),
            outputs.as_mut_ptr(),
            outputs.len(),
            next.as_mut_ptr(),
            next.len(),
        )
    });
    if answer.code == ACCEPTED {
        Ok((outputs, next))
    } else {
        Err(answer)
    }
}

/// The record of the alternative that fired, for each IF; 0 elsewhere.
pub fn fired(sheet: &[u8], stimulus: &[u8]) -> Result<Vec<u16>, Answer> {
    let mut fired = vec![0; sheet.len() / 12];
    let answer = Answer::unpacked(unsafe {
        sheet_fired(
            sheet.as_ptr(),
            sheet.len(),
            stimulus.as_ptr(),
            stimulus.len(),
            fired.as_mut_ptr(),
            fired.len(),
        )
    });
    if answer.code == ACCEPTED {
        Ok(fired)
    } else {
        Err(answer)
    }
}

/// A call on one cycle that writes a byte for each output leaf.
type OneCycle = unsafe extern "C" fn(*const u8, usize, *const u8, usize, *mut u8, usize) -> u64;

/// What such a call writes: without room it says how many bytes that is.
fn one_cycle(call: OneCycle, sheet: &[u8], stimulus: &[u8]) -> Result<Vec<u8>, Answer> {
    let mut written = vec![0; MOST_LEAVES];
    let call = |written: &mut [u8]| {
        Answer::unpacked(unsafe {
            call(
                sheet.as_ptr(),
                sheet.len(),
                stimulus.as_ptr(),
                stimulus.len(),
                written.as_mut_ptr(),
                written.len(),
            )
        })
    };
    let mut answer = call(&mut written[..0]);
    if answer.code == WRONG_OUTPUT_LENGTH {
        written.truncate(answer.place as usize);
        answer = call(&mut written);
    }
    if answer.code == ACCEPTED {
        Ok(written)
    } else {
        Err(answer)
    }
}

/// The outputs of one cycle, which is not taken.
pub fn preview(sheet: &[u8], stimulus: &[u8]) -> Result<Vec<u8>, Answer> {
    one_cycle(sheet_preview, sheet, stimulus)
}

/// How many constructors are still possible at each output leaf of one cycle.
#[cfg(call_possible)]
pub fn possible(sheet: &[u8], stimulus: &[u8]) -> Result<Vec<u8>, Answer> {
    one_cycle(sheet_possible, sheet, stimulus)
}

/// The new sheet with the values that the delays of the old one hold.
pub fn carry(old: &[u8], new: &[u8]) -> Result<Vec<u8>, Answer> {
    let mut next = vec![0; new.len()];
    let answer = Answer::unpacked(unsafe {
        sheet_carry(old.as_ptr(), old.len(), new.as_ptr(), new.len(), next.as_mut_ptr(), next.len())
    });
    if answer.code == ACCEPTED {
        Ok(next)
    } else {
        Err(answer)
    }
}

/// The input leaf and its constructor whose change alters an output leaf.
#[cfg(call_press)]
pub fn press(sheet: &[u8], stimulus: &[u8], leaf: usize) -> Result<Option<(usize, u8)>, Answer> {
    let pressed = unsafe {
        sheet_press(sheet.as_ptr(), sheet.len(), stimulus.as_ptr(), stimulus.len(), leaf)
    };
    let answer = Answer::unpacked(pressed.result);
    match (answer.code, pressed.found) {
        (ACCEPTED, 0) => Ok(None),
        (ACCEPTED, _) => Ok(Some((pressed.leaf as usize, pressed.constructor as u8))),
        _ => Err(answer),
    }
}

/// How many defined inputs lead an output leaf to each value.
#[cfg(call_count)]
pub fn count(sheet: &[u8], leaf: usize) -> Result<[u32; 256], Answer> {
    let counts = unsafe { sheet_count(sheet.as_ptr(), sheet.len(), leaf) };
    let answer = Answer::unpacked(counts.result);
    if answer.code == ACCEPTED {
        Ok(counts.counters)
    } else {
        Err(answer)
    }
}

/// Whether recorded outputs are those of a run: the sheet after it, or the
/// first cycle and leaf that differ.
#[cfg(call_replay)]
pub fn replay(
    sheet: &[u8],
    stimulus: &[u8],
    recorded: &[u8],
) -> Result<Result<Vec<u8>, (usize, usize)>, Answer> {
    let mut next = vec![0; sheet.len()];
    let replayed = unsafe {
        sheet_replay(
            sheet.as_ptr(),
            sheet.len(),
            stimulus.as_ptr(),
            stimulus.len(),
            recorded.as_ptr(),
            recorded.len(),
            next.as_mut_ptr(),
            next.len(),
        )
    };
    let answer = Answer::unpacked(replayed.result);
    match (answer.code, replayed.differs) {
        (ACCEPTED, 0) => Ok(Ok(next)),
        (ACCEPTED, _) => Ok(Err((replayed.cycle as usize, replayed.leaf as usize))),
        _ => Err(answer),
    }
}
