//! The parts of the comparison: shards of random calls.

use std::collections::HashMap;

use super::bench::SHEETS;
use super::carry::{same_pairs, same_shape};
use super::case::{Carries, Case};
use super::cases::{broken, case, other_length, running, sheets_of_delays, twice, two_circuits};
use super::tally::{self, QUOTAS};
use crate::accepted::Circuit;
use crate::answers::{ILL_TYPED, LABEL_TWICE, WRONG_LENGTH, WRONG_NEXT_LENGTH};
use crate::faults::category::Category;
use crate::frame::comparison::{self, Ended, SHARDS, TRIES};
use crate::frame::tally::least;
use crate::fuzz;
use crate::labels::{labels, repeated};
use crate::random::Random;
use crate::records::{bytes, read, A, D, FLAT, KIND};
use crate::shapes;

type Comparer<'a> = comparison::Comparer<'a, Carries>;

/// How many accepted calls there are of sheets of delays.
const CARRIED: u64 = 60_000;
const CIRCUITS: u64 = 8_000;

pub enum Job {
    Carried(u64),
    Circuits,
    Running,
    Twice,
    Refused,
    TwoFaults,
    Fuzzed,
    Large,
}

/// All jobs, in order.
pub fn in_order() -> Vec<Job> {
    let mut jobs = Vec::new();
    for _ in 0..SHARDS {
        jobs.extend([
            Job::Carried(CARRIED.div_ceil(SHARDS)),
            Job::Circuits,
            Job::Running,
            Job::Twice,
            Job::Refused,
            Job::TwoFaults,
            Job::Fuzzed,
            Job::Large,
        ]);
    }
    jobs
}

impl Job {
    pub fn run(&self, to: &mut Comparer, categories: &[Category], random: &mut Random) -> Ended {
        match self {
            Job::Carried(calls) => {
                (0..*calls).try_for_each(|_| compare_good(to, &sheets_of_delays(random)))
            }
            Job::Circuits => (0..CIRCUITS.div_ceil(SHARDS))
                .filter_map(|_| two_circuits(random))
                .try_for_each(|case| compare_good(to, &case)),
            Job::Running => all_running(to, random),
            Job::Twice => all_twice(to, random),
            Job::Refused => refused(to, categories, random),
            Job::TwoFaults => two_faults(to, categories, random),
            Job::Fuzzed => fuzzed(to, random),
            Job::Large => large(to),
        }
    }
}

fn share(name: &str) -> u64 {
    least(&QUOTAS, name).div_ceil(SHARDS)
}

/// Compares a call that keeps every rule, and counts what came up in it.
fn compare_good(to: &mut Comparer, case: &Case) -> Ended {
    let outcome = to.carries(case)?;
    let (Some(next), Ok(old), Ok(new)) =
        (&outcome.next, Circuit::read(&case.old), Circuit::read(&case.new))
    else {
        return Ok(());
    };
    let [one, other] = [&case.old, &case.new].map(|sheet| labels(sheet));
    let zeros = |labels: &[u16]| labels.iter().filter(|&&label| label == 0).count();
    let counts = [
        (tally::CARRIED, *next != case.new),
        (tally::ZEROS, zeros(&one) > 0 && zeros(&other) > 0),
        (tally::ZERO_TWICE, zeros(&one) > 1 || zeros(&other) > 1),
    ];
    counts.into_iter().for_each(|(name, holds)| to.tally.add_if(name, holds));
    count_shapes(to, &old, &new);
    Ok(())
}

/// Counts the labels that both sheets have, by the shapes of their types.
fn count_shapes(to: &mut Comparer, old: &Circuit, new: &Circuit) {
    let bearers: HashMap<u16, usize> =
        old.delays().map(|delay| (old.records[delay][D], delay)).collect();
    for delay in new.delays().filter(|&delay| new.records[delay][D] != 0) {
        let Some(&partner) = bearers.get(&new.records[delay][D]) else {
            to.tally.add(tally::NO_PARTNER, 1);
            continue;
        };
        let (from, of) = (old.records[partner][A], new.records[delay][A]);
        let flats = [old.records[usize::from(from)], new.records[usize::from(of)]]
            .map(|record| record[KIND] == FLAT);
        let like = same_shape(old, from, new, of);
        let pairs = same_pairs(old, from, new, of);
        let taken = &old.leaves[partner];
        let counts = [
            (tally::ALIKE, like),
            (tally::ALIKE_PAIRS, like && !flats[0]),
            (tally::ALIKE_ELSEWHERE, like && from != of),
            (tally::UNDEFINED, like && *taken != new.leaves[delay] && taken.contains(&0)),
            (tally::UNLIKE, !like),
            (tally::OTHER_COUNTS, !like && pairs),
            (tally::OTHER_PAIRS, !pairs && old.counts(from) == new.counts(of)),
            (tally::PAIR_AND_FLAT, flats[0] != flats[1]),
        ];
        counts.into_iter().for_each(|(name, holds)| to.tally.add_if(name, holds));
    }
}

/// Running sheets: the next slice is the running sheet.
fn all_running(to: &mut Comparer, random: &mut Random) -> Ended {
    while to.tally.got(tally::RUNNING) < share(tally::RUNNING) {
        let Some(case) = running(random) else { continue };
        let next = to.carries(&case)?.next;
        assert!(to.mistake.is_some() || next.as_ref() == Some(&case.old), "not carried whole");
        to.tally.add_if(tally::RUNNING, case.old != case.new);
    }
    Ok(())
}

/// Labels twice, until every way has enough.
fn all_twice(to: &mut Comparer, random: &mut Random) -> Ended {
    let ways = [tally::OLD_TWICE, tally::NEW_TWICE, tally::BOTH_TWICE];
    while ways.iter().any(|way| to.tally.got(way) < share(way)) {
        let Some((case, way)) = twice(random) else { continue };
        let outcome = to.carries(&case)?;
        to.tally.add_if(way, outcome.answer.code == LABEL_TWICE);
        let several =
            [&case.old, &case.new].into_iter().any(|sheet| repeated(&labels(sheet)).len() > 1);
        to.tally.add_if(tally::SEVERAL_TWICE, several);
    }
    Ok(())
}

/// Each code of either sheet, and wrong lengths.
fn refused(to: &mut Comparer, categories: &[Category], random: &mut Random) -> Ended {
    for code in WRONG_LENGTH..=ILL_TYPED {
        for of_old in [true, false] {
            let need = tally::PER_NEW_CODE.max(tally::PER_CODE).div_ceil(SHARDS);
            let mut hits = 0;
            for _ in 0..need * TRIES {
                let Some((name, sheet)) = broken(code, categories, random) else { continue };
                let good = sheets_of_delays(random);
                let call = match of_old {
                    true => case(&name, sheet, good.new),
                    false => case(&name, good.old, sheet),
                };
                let answer = to.carries(&call)?.answer;
                let hit = if of_old { answer.code == code } else { answer.place == code.into() };
                hits += u64::from(hit);
                if hits >= need {
                    break;
                }
            }
        }
    }
    let ways = [tally::NEXT_NONE, tally::NEXT_SHORTER, tally::NEXT_LONGER, tally::NEXT_OF_OLD];
    while ways.iter().any(|way| to.tally.got(way) < share(way)) {
        let mut call = sheets_of_delays(random);
        let Some((length, way)) = other_length(&call, random) else { continue };
        call.next_length = length;
        let outcome = to.carries(&call)?;
        to.tally.add_if(way, outcome.answer.code == WRONG_NEXT_LENGTH);
    }
    Ok(())
}

/// One of the check's codes.
fn any_code(random: &mut Random) -> u8 {
    random.range(usize::from(WRONG_LENGTH), usize::from(ILL_TYPED)) as u8
}

/// Calls with two faults, of which one is told.
fn two_faults(to: &mut Comparer, categories: &[Category], random: &mut Random) -> Ended {
    let ways = [
        tally::BOTH_REFUSED,
        tally::REFUSED_AND_TWICE,
        tally::REFUSED_AND_LENGTH,
        tally::TWICE_AND_LENGTH,
        tally::OLD_AND_LENGTH,
    ];
    for way in ways {
        while to.tally.got(way) < share(way) {
            let code = any_code(random);
            let Some((_, wrong)) = broken(code, categories, random) else { continue };
            let Some((doubled, _)) = twice(random) else { continue };
            let mut call = match way {
                tally::BOTH_REFUSED => {
                    let code = any_code(random);
                    let Some((_, old)) = broken(code, categories, random) else { continue };
                    case(way, old, wrong)
                }
                tally::REFUSED_AND_TWICE => case(way, doubled.old, wrong),
                tally::REFUSED_AND_LENGTH => case(way, doubled.old, wrong),
                tally::OLD_AND_LENGTH => case(way, wrong, doubled.new),
                _ => doubled,
            };
            let holds = match way {
                tally::BOTH_REFUSED => true,
                tally::REFUSED_AND_TWICE => !repeated(&labels(&call.old)).is_empty(),
                _ => {
                    call.next_length = random.below(call.new.len() + 30);
                    call.next_length != call.new.len()
                }
            };
            to.carries(&call)?;
            to.tally.add_if(way, holds);
        }
    }
    Ok(())
}

/// Sheets changed at random.
fn fuzzed(to: &mut Comparer, random: &mut Random) -> Ended {
    for k in 0..share(tally::FUZZED) {
        let mut call = sheets_of_delays(random);
        let sheet = if k % 2 == 0 { &mut call.old } else { &mut call.new };
        let mut records = read(sheet);
        match k % 3 {
            0 => fuzz::change_words(&mut records, random),
            1 => fuzz::change_records(&mut records, random),
            _ => fuzz::change_types(&mut records, random),
        }
        *sheet = bytes(&records);
        call.next_length = call.new.len();
        to.carries(&call)?;
        to.tally.add(tally::FUZZED, 1);
    }
    Ok(())
}

/// The sheets of many labelled delays, each into the other.
fn large(to: &mut Comparer) -> Ended {
    for (one, other) in SHEETS {
        let [one, other] = [one, other].map(|name| shapes::named(name).unwrap_or_default());
        compare_good(to, &case(tally::LARGE, one.clone(), other.clone()))?;
        compare_good(to, &case(tally::LARGE, other, one))?;
        to.tally.add(tally::LARGE, 2);
    }
    Ok(())
}
