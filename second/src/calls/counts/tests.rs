//! Counts worked out by hand from the rules of one cycle in docs/SHEETS.md.

use super::circuits::{and, carry, equality, last, multiplexer, rows, second_of_two, xor};
use super::counting::{count, each_input, Call, Counters, NONE};
use super::given_inputs;
use super::mistakes::{self, MISTAKES};
use super::products::{counts_of, counts_over, JUST_OVER, WAYS};
use crate::draft::Draft;
use crate::layout::sheet;
use crate::random::Random;
use crate::records::{bytes, read, A};
use crate::samples::{self, from_words};
use crate::simulator::{self, run};

/// The code, the place and the counters.
fn counted(sheet: &[u8], leaf: usize) -> (u8, u32, Counters) {
    let outcome = count(&Call { sheet, leaf });
    (outcome.answer.code, outcome.answer.place, outcome.counters)
}

/// The counters of values, the others 0.
fn with(values: &[(usize, u32)]) -> Counters {
    let mut counters = NONE;
    values.iter().for_each(|&(value, inputs)| counters[value] = inputs);
    counters
}

/// Checks the counters of a call that nothing refuses.
#[track_caller]
fn assert_counters(sheet: &[u8], leaf: usize, values: &[(usize, u32)]) {
    assert_eq!(counted(sheet, leaf), (0, 0, with(values)));
}

/// Checks a refusal, with every counter 0.
#[track_caller]
fn assert_refused(sheet: &[u8], leaf: usize, code: u8, place: u32) {
    assert_eq!(counted(sheet, leaf), (code, place, NONE));
}

/// The input is the output: leaves of these constructor counts.
fn copying(counts: &[usize]) -> Vec<u8> {
    let mut random = Random::new(1);
    sheet(&given_inputs::copying(counts, &mut random), &mut random)
}

/// T with its delay holding a value.
fn t_holding(value: u16) -> Vec<u8> {
    let mut records = read(&samples::t());
    records[4][A] = value;
    bytes(&records)
}

/// (1,1) gives 1; (1,2), (2,1) and (2,2) give 2.
#[test]
fn of_and() {
    assert_counters(&samples::and(), 0, &[(1, 1), (2, 3)]);
}

/// (1,1) and (2,2) give 1, the two others 2.
#[test]
fn of_two_pairs() {
    assert_counters(&samples::two_pairs(), 0, &[(1, 2), (2, 2)]);
}

/// T's output is what its delay holds, for either input.
#[test]
fn of_t() {
    for held in 0..=2 {
        assert_counters(&t_holding(held), 0, &[(usize::from(held), 2)]);
    }
    assert_counters(&samples::t(), 0, &[(2, 2)]);
}

/// Feedbacks: undefined for both inputs; or both leaves hi.
#[test]
fn of_feedbacks() {
    assert_counters(&samples::not_feedback(), 0, &[(0, 2)]);
    assert_counters(&samples::self_feedback(), 0, &[(0, 2)]);
    assert_counters(&samples::pair_feedback(), 0, &[(1, 2)]);
    assert_counters(&samples::pair_feedback(), 1, &[(1, 2)]);
}

/// The input is a three and a bit; the output its second part, IF its first part
/// is 3 THEN the delay's value ELSE its second part. The delay holds `held`, and
/// next the second part.
fn three_and_bit(held: u16) -> Vec<u8> {
    bytes(&from_words(&[
        &[1, 1, 3, 5],
        &[16, 2, 3],
        &[16, 3, 2],
        &[17, 4, 1, 2],
        &[17, 0, 2, 2],
        &[34, 0, 6, 8],
        &[36, 0, 7],
        &[33],
        &[39, 0, 9, 11, 15, 17],
        &[35, 0, 10],
        &[33],
        &[40, 0, 2, 12, 13],
        &[64, 0, held],
        &[36, 0, 14],
        &[33],
        &[36, 0, 16],
        &[33],
        &[49, 0, 1, 3],
    ]))
}

/// Of six inputs two have a 3; of the four others two have 1 and two have 2.
#[test]
fn by_output_leaf_and_held_value() {
    for held in 0..=2 {
        assert_counters(&three_and_bit(held), 0, &[(1, 3), (2, 3)]);
    }
    assert_counters(&three_and_bit(0), 1, &[(0, 2), (1, 2), (2, 2)]);
    assert_counters(&three_and_bit(1), 1, &[(1, 4), (2, 2)]);
    assert_counters(&three_and_bit(2), 1, &[(1, 2), (2, 4)]);
    assert_refused(&three_and_bit(2), 2, 21, 2);
}

/// 64 leaves of one constructor have one input; each leaf is then 1.
#[test]
fn of_one_constructor() {
    let sheet = copying(&[1; 64]);
    for leaf in [0, 31, 63] {
        assert_counters(&sheet, leaf, &[(1, 1)]);
    }
    assert_refused(&sheet, 64, 21, 64);
}

/// At the limit and past it, by little and by very much.
#[test]
fn of_many_inputs() {
    let sixteen: Vec<(usize, u32)> = (1..=16).map(|value| (value, 4_096)).collect();
    let fours = copying(&[16; 4]);
    assert_counters(&fours, 0, &sixteen);
    assert_counters(&fours, 3, &sixteen);
    assert_refused(&fours, 4, 21, 4);
    let bits = copying(&[2; 16]);
    assert_counters(&bits, 15, &[(1, 32_768), (2, 32_768)]);
    // 2 * 7 * 31 * 151 is 65,534.
    let below = copying(&[2, 7, 31, 151]);
    assert_counters(&below, 0, &[(1, 32_767), (2, 32_767)]);
    let over = copying(&[4, 5, 29, 113]);
    let long = copying(&[255; 64]);
    let of_bits = [17, 32, 64].map(|leaves| copying(&[2; 64][..leaves]));
    for sheet in [&over, &long].into_iter().chain(&of_bits) {
        // Code 20 comes before code 21.
        for leaf in [0, 3, 64, 1 << 32, usize::MAX] {
            assert_refused(sheet, leaf, 20, 0);
        }
    }
}

/// A constant, whatever an input of 16 * 16 * 16 * 16 constructors.
fn constant() -> Vec<u8> {
    let mut draft = Draft::new();
    let flat = draft.flat(16);
    let pair = draft.need_pair(flat, flat);
    let input = draft.need_pair(pair, pair);
    draft.set_input(input);
    let leaf = draft.leaves(&[7]);
    let root = draft.constant(flat, leaf);
    draft.set_root(root);
    sheet(&draft, &mut Random::new(1))
}

/// One counter has all 65,536 inputs.
#[test]
fn of_one_value() {
    assert_counters(&constant(), 0, &[(7, 65_536)]);
}

#[test]
fn refusals() {
    let and = samples::and();
    for leaf in [1, 2, 1 << 32, (1 << 32) + 1, usize::MAX] {
        assert_refused(&and, leaf, 21, 1);
    }
    assert_refused(&samples::pair_feedback(), 2, 21, 2);
    // The sheet first.
    let t = samples::t();
    for leaf in [0, 5] {
        assert_refused(&[], leaf, 1, 0);
        assert_refused(&t[1..], leaf, 1, 0);
        let mut records = read(&t);
        records[0][A] = 0;
        assert_refused(&bytes(&records), leaf, 2, 0);
        let mut records = read(&t);
        records[7][A] = 0;
        assert_refused(&bytes(&records), leaf, 3, 7);
    }
}

/// The timed circuits with few bits: of four, 1 hi of AND, 8 of XOR; 4 of 16
/// pairs are equal; (1,3), (2,2), (2,3), (3,1), (3,2) and (3,3) have a carry.
#[test]
fn of_timed_circuits() {
    assert_counters(&and(1), 0, &[(1, 1), (2, 3)]);
    assert_counters(&and(2), 0, &[(1, 1), (2, 15)]);
    assert_counters(&xor(1), 0, &[(1, 2), (2, 2)]);
    assert_counters(&xor(2), 0, &[(1, 8), (2, 8)]);
    assert_counters(&equality(2), 0, &[(1, 4), (2, 12)]);
    for low_bit_first in [false, true] {
        assert_counters(&carry(1, low_bit_first), 0, &[(1, 1), (2, 3)]);
        assert_counters(&carry(2, low_bit_first), 0, &[(1, 6), (2, 10)]);
    }
    assert_counters(&last(2), 0, &[(1, 8), (2, 8)]);
    assert_counters(&multiplexer(2, [3, 0, 2]), 0, &[(1, 8), (2, 8)]);
    assert_counters(&second_of_two(3), 0, &[(1, 3), (2, 3), (3, 3)]);
    // The rows are accepted sheets of one output leaf.
    for row in rows() {
        assert_refused(&row.sheet, 1, 21, 1);
    }
}

/// With the last bit hi the first bit shows, else the third.
#[test]
fn multiplexers_choose() {
    let sheet = multiplexer(2, [3, 0, 2]);
    let shown = |stimulus: &[u8]| {
        let call = simulator::Call {
            sheet: &sheet,
            stimulus,
            output_length: 1,
            next_length: sheet.len(),
        };
        run(&call).outputs
    };
    assert_eq!(shown(&[1, 2, 2, 1]), Some(vec![1]));
    assert_eq!(shown(&[1, 2, 2, 2]), Some(vec![2]));
    assert_eq!(shown(&[2, 1, 1, 2]), Some(vec![1]));
    assert_eq!(shown(&[2, 1, 1, 1]), Some(vec![2]));
}

#[test]
fn inputs_in_order() {
    let mut shown = Vec::new();
    each_input(&[1..=2, 1..=1, 1..=3], |input| shown.push(input.to_vec()));
    let expected = [[1, 1, 1], [1, 1, 2], [1, 1, 3], [2, 1, 1], [2, 1, 2], [2, 1, 3]];
    assert_eq!(shown, expected);
}

/// Counts have their products; no product between the limit and 65,540 can be
/// had.
#[test]
fn products() {
    let mut random = Random::new(1);
    for product in [1, 2, 255, 1_024, 65_534, 65_536, JUST_OVER] {
        for _ in 0..20 {
            let counts = counts_of(product, &mut random).unwrap_or_default();
            assert_eq!(counts.iter().product::<usize>(), product);
            assert!(counts.iter().all(|count| (2..=255).contains(count)));
        }
    }
    assert!((65_537..JUST_OVER).all(|product| counts_of(product, &mut random).is_none()));
    for way in &WAYS[..WAYS.len() - 1] {
        let over = (0..20).filter_map(|_| counts_over(way, &mut random)).all(|counts| {
            let product = counts.iter().copied().fold(1, usize::saturating_mul);
            product > 65_536 && counts.len() <= 64
        });
        assert!(over, "{way}");
    }
}

/// Each mistake shows on some call.
#[test]
fn mistakes_show() {
    let calls = [
        (samples::and(), 0),
        (samples::and(), 1),
        (samples::and(), 1 << 32),
        (samples::t(), 0),
        (samples::t()[1..].to_vec(), 0),
        (samples::not_feedback(), 0),
        (three_and_bit(0), 0),
        (three_and_bit(2), 1),
        (copying(&[1; 2]), 0),
        (copying(&[128]), 0),
        (copying(&[2; 32]), 0),
        (copying(&[2; 17]), 20),
    ];
    let long = [(copying(&[4, 5, 29, 113]), 0), (constant(), 0)];
    for (name, mistake) in MISTAKES {
        let shows = calls.iter().chain(&long).any(|(sheet, leaf)| {
            let call = Call { sheet, leaf: *leaf };
            count(&call) != mistakes::count(&call, Some(mistake))
        });
        assert!(shows, "{name}");
    }
}
