//! Previews worked out by hand from docs/SHEETS.md, "The preview".

use super::mistakes::{self, MISTAKES};
use super::preview::{preview, Call};
use crate::generate::small::small;
use crate::layout::sheet;
use crate::random::Random;
use crate::records::{bytes, A};
use crate::samples::{self, from_words};
use crate::simulator::{self, ready, run};

/// The code, the place and the slice, which holds 7s beforehand.
fn previewed(sheet: &[u8], stimulus: &[u8], output_length: usize) -> (u8, u32, Vec<u8>) {
    let outcome = preview(&Call { sheet, stimulus, output_length });
    let slice = outcome.outputs.unwrap_or(vec![7; output_length]);
    (outcome.answer.code, outcome.answer.place, slice)
}

/// T whose delay holds this value.
fn t_holding(held: u16) -> Vec<u8> {
    let mut records = crate::records::read(&samples::t());
    records[4][A] = held;
    bytes(&records)
}

/// A delay, from 3, of the input's second part: the input has the leaves of a
/// bit and a three.
fn delay_of_second() -> Vec<u8> {
    bytes(&from_words(&[
        &[1, 1, 3, 4],
        &[16, 2, 2],
        &[16, 3, 3],
        &[17, 0, 1, 2],
        &[40, 0, 2, 5, 6],
        &[64, 0, 3],
        &[36, 0, 7],
        &[33],
    ]))
}

#[test]
fn t_shows_what_it_holds() {
    for held in 0..=2 {
        for input in 0..=2 {
            let shown = previewed(&t_holding(held), &[input], 1);
            assert_eq!(shown, (0, 0, vec![held as u8]), "{held} on {input}");
        }
    }
}

#[test]
fn small_sheets() {
    assert_eq!(previewed(&samples::and(), &[1, 1], 1), (0, 0, vec![1]));
    assert_eq!(previewed(&samples::and(), &[2, 0], 1), (0, 0, vec![2]));
    assert_eq!(previewed(&samples::and(), &[1, 0], 1), (0, 0, vec![0]));
    assert_eq!(previewed(&samples::pair_feedback(), &[0], 2), (0, 0, vec![1, 1]));
    assert_eq!(previewed(&samples::not_feedback(), &[1], 1), (0, 0, vec![0]));
    // The delay shows 3 on every input, also on one that is undefined.
    for input in [[0, 0], [1, 2], [2, 3]] {
        assert_eq!(previewed(&delay_of_second(), &input, 1), (0, 0, vec![3]));
    }
}

#[test]
fn refusals() {
    let t = samples::t();
    // 8: empty, two cycles, many, half a cycle, a cycle and a half, too many bytes.
    for stimulus in [&[][..], &[1, 2], &[1; 3], &[1; 65_535], &[1; 65_536]] {
        for length in [0, 1, stimulus.len()] {
            assert_eq!(previewed(&t, stimulus, length), (8, 0, vec![7; length]));
        }
    }
    let delay = delay_of_second();
    for stimulus in [&[][..], &[1], &[1, 1, 1], &[1, 1, 1, 1]] {
        assert_eq!(previewed(&delay, stimulus, 1), (8, 0, vec![7]));
    }
    // 9 at the first byte above its leaf's count.
    assert_eq!(previewed(&t, &[3], 1), (9, 0, vec![7]));
    assert_eq!(previewed(&delay, &[2, 4], 1), (9, 1, vec![7]));
    assert_eq!(previewed(&delay, &[3, 4], 1), (9, 0, vec![7]));
    // 10 at the output's leaves, which are not the input's.
    for length in [0, 2, 3] {
        assert_eq!(previewed(&delay, &[2, 3], length), (10, 1, vec![7; length]));
        let pair = samples::pair_feedback();
        let length = if length == 2 { 1 } else { length };
        assert_eq!(previewed(&pair, &[2], length), (10, 2, vec![7; length]));
    }
    // The lowest first.
    assert_eq!(previewed(&t[1..], &[], 5).0, 1);
    assert_eq!(previewed(&t, &[3, 3], 5).0, 8);
    assert_eq!(previewed(&t, &[3], 5).0, 9);
}

/// A preview is the run of that one cycle on a copy, whatever the call.
#[test]
fn as_a_run_of_one_cycle() {
    let mut random = Random::new(31);
    for _ in 0..500 {
        let sheet = sheet(&small(&mut random), &mut random);
        let Ok(empty) = ready(&sheet, &[]) else { continue };
        let counts = empty.circuit.counts(empty.circuit.input());
        let leaf = |count: &u8| random.below(usize::from(*count) + 2) as u8;
        let stimulus: Vec<u8> = counts.iter().map(leaf).collect();
        let output_length = empty.leaves + random.below(2);
        let call = simulator::Call {
            sheet: &sheet,
            stimulus: &stimulus,
            output_length,
            next_length: sheet.len(),
        };
        let (ran, shown) =
            (run(&call), { preview(&Call { sheet: &sheet, stimulus: &stimulus, output_length }) });
        assert_eq!((ran.answer.code, ran.outputs), (shown.answer.code, shown.outputs));
        let place = if ran.answer.code == 0 { 0 } else { ran.answer.place };
        assert_eq!(shown.answer.place, place);
    }
}

/// Each mistake shows on some call.
#[test]
fn mistakes_show() {
    let calls: [(Vec<u8>, &[u8], usize); 8] = [
        (samples::t(), &[1, 1], 1),
        (samples::t(), &[], 0),
        (samples::t(), &[1], 1),
        (samples::t(), &[3, 3], 1),
        (samples::t(), &[3], 2),
        (samples::pair_feedback(), &[1], 2),
        (delay_of_second(), &[1, 1], 1),
        (delay_of_second(), &[1, 1], 2),
    ];
    for (name, mistake) in MISTAKES {
        let shows = calls.iter().any(|(sheet, stimulus, output_length)| {
            let call = Call { sheet, stimulus, output_length: *output_length };
            let (right, wrong) = (preview(&call), mistakes::preview(&call, Some(mistake)));
            (right.answer, right.outputs) != (wrong.answer, wrong.outputs)
        });
        assert!(shows, "{name}");
    }
}
