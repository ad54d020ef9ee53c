//! Ways of filling, what is promised of them, and circuits that the call takes.

use super::asked::{circuit, constant};
use crate::accepted::Circuit;
use crate::calls::possibles::cases::{call, ground};
use crate::calls::possibles::circuits::circuit as random_circuit;
use crate::calls::possibles::fillings::Fillable;
use crate::calls::possibles::fitting::{fitted, unfit, ABOVE, FEEDBACKS, JUST_ABOVE, UNUSED, WAYS};
use crate::calls::possibles::promises::not_kept_by_second;
use crate::calls::possibles::remaining::{unfit as unfit_record, MOST_CONSTRUCTORS};
use crate::generate::mixed::for_faults;
use crate::generate::small::small;
use crate::layout::sheet;
use crate::random::Random;
use crate::records::{read, A, FEEDBACK, FLAT, KIND, LEAF};
use crate::rule::IN_FORCE;
use crate::samples;

/// The input, a bit, and a delay of a three beside a constant of both.
fn with_gaps() -> Vec<u8> {
    circuit(|draft| {
        let (bit, three) = (draft.flat(2), draft.flat(3));
        let two = draft.need_pair(bit, three);
        let of = draft.need_pair(two, three);
        let (leaf, part) = (draft.leaves(&[0]), constant(draft, three, &[1]));
        let delay = draft.delay(three, leaf, part);
        let input = draft.name(0, bit);
        let first = draft.pair(input, delay, two);
        let held = constant(draft, two, &[2, 0]);
        let second = draft.second(held, three);
        (bit, draft.pair(first, second, of))
    })
}

/// Two ways for the bit, three for the delay and three for the constant.
#[test]
fn all_ways() {
    let sheet = with_gaps();
    let mut call = Fillable::of(&sheet, &[0]).unwrap_or_else(|| unreachable!("accepted"));
    assert_eq!((call.gaps.len(), call.gaps_of_input(), call.ways()), (3, 1, 18));
    let mut seen: Vec<Vec<u8>> = Vec::new();
    for way in 0..18 {
        call.fill(way);
        let again = Fillable::of(&call.sheet, &call.input);
        assert!(again.is_some_and(|again| again.gaps.is_empty() && again.ways() == 1));
        seen.push(call.outputs(IN_FORCE));
    }
    seen.sort();
    seen.dedup();
    assert_eq!(seen.len(), 18);
    assert!(seen.iter().all(|outputs| !outputs.contains(&0)));
    (0..3).for_each(|gap| call.put(gap, 0));
    assert_eq!((call.sheet, call.input), (sheet.clone(), vec![0]));
    // Only words a of leaves are written.
    let mut filled = Fillable::of(&sheet, &[1]).unwrap_or_else(|| unreachable!("accepted"));
    assert_eq!(filled.gaps.len(), 2);
    filled.fill(8);
    for (before, after) in read(&sheet).into_iter().zip(read(&filled.sheet)) {
        let differs = |word: usize| before[word] != after[word];
        assert!((0..6).all(|word| !differs(word) || word == A && before[KIND] == LEAF));
    }
}

/// The promise holds of the bench cases and of random circuits.
#[test]
fn promises() {
    for input in [[0, 0], [1, 0], [0, 2]] {
        for sheet in [samples::and(), samples::two_pairs()] {
            let Some(ground) = ground(&sheet) else { unreachable!("accepted") };
            let mut case = call(&ground, "promise", sheet, &mut Random::new(1));
            case.stimulus = input.to_vec();
            assert_eq!(not_kept_by_second(&case), None);
        }
    }
    let random = &mut Random::new(5);
    let mut tried = 0;
    while tried < 60 {
        let draft = if random.one_in(2) { small(random) } else { random_circuit(random) };
        let sheet = sheet(&fitted(draft, random), random);
        let Some(ground) = ground(&sheet) else { continue };
        let case = call(&ground, "promise", sheet, random);
        let ways = Fillable::of(&case.sheet, &case.stimulus).map_or(0, |call| call.ways());
        if (2..=200).contains(&ways) {
            assert_eq!(not_kept_by_second(&case), None);
            tried += 1;
        }
    }
}

/// Fitted circuits are accepted and keep the rule of 22; unfit ones do not.
#[test]
fn fitting() {
    let random = &mut Random::new(6);
    for _ in 0..200 {
        let any = for_faults(random);
        let sheet_of_fitted = sheet(&fitted(any.clone(), random), random);
        let Ok(circuit) = Circuit::read(&sheet_of_fitted) else { continue };
        assert!(!circuit.records.iter().any(unfit_record));
        for way in WAYS {
            let Some(draft) = unfit(any.clone(), way, random) else { continue };
            let records = read(&sheet(&draft, random));
            let fed_back = records.iter().any(|record| record[KIND] == FEEDBACK);
            let above =
                |most: u16| records.iter().any(|record| record[KIND] == FLAT && record[A] > most);
            let found = (fed_back, above(MOST_CONSTRUCTORS), above(MOST_CONSTRUCTORS + 1));
            match way {
                FEEDBACKS => assert_eq!(found, (true, false, false)),
                JUST_ABOVE => assert_eq!(found, (false, true, false)),
                ABOVE => assert_eq!(found, (false, true, true)),
                UNUSED => assert!(!found.0 && found.1),
                _ => assert!(found.0 && found.1),
            }
        }
    }
}
