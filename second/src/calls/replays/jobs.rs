//! The parts of the comparison. The fixed sheets come first, then shards of
//! the random ones.

use super::cases::{bit_64_times, some_cycles, Ran};
use super::compare::Replays;
use super::faults::{broken, with_record};
use super::tally::{self, codes, least_of, two_codes, QUOTAS};
use crate::answers::WRONG_NEXT_LENGTH;
use crate::calls::runs::cases::{few_cycles, good, Frame};
use crate::frame::comparison::{self, Ended, SHARDS, TRIES};
use crate::frame::tally::{laid_out, least, of_codes};
use crate::fuzz;
use crate::generate::circuits::{circuit, circuit_of_records};
use crate::generate::mixed::{for_faults, with_limits};
use crate::generate::small::small;
use crate::layout::{layout, layout_in, record_count, sheet, Order, ORDERS};
use crate::random::Random;
use crate::records::{bytes, MAX_RECORDS};
use crate::samples;
use crate::shapes;
use crate::stimulus::LONGEST_STIMULUS;

type Comparer<'a> = comparison::Comparer<'a, Replays>;

pub enum Job {
    Bench,
    Shapes,
    Accepted(u64),
    Refused,
    TwoFaults,
    Fuzzed,
    Large,
}

/// All jobs, in order.
pub fn in_order() -> Vec<Job> {
    let mut jobs = vec![Job::Bench, Job::Shapes];
    for _ in 0..SHARDS {
        jobs.extend([
            Job::Accepted(share(tally::ACCEPTED_ONES)),
            Job::Refused,
            Job::TwoFaults,
            Job::Fuzzed,
            Job::Large,
        ]);
    }
    jobs
}

impl Job {
    pub fn run(&self, to: &mut Comparer, random: &mut Random) -> Ended {
        match self {
            Job::Bench => bench_cases(to, random),
            Job::Shapes => named_shapes(to, random),
            Job::Accepted(calls) => accepted(to, *calls, random),
            Job::Refused => refused(to, random),
            Job::TwoFaults => two_faults(to, random),
            Job::Fuzzed => fuzzed(to, random),
            Job::Large => large(to, random),
        }
    }
}

fn share(name: &str) -> u64 {
    least(&QUOTAS, name).div_ceil(SHARDS)
}

/// A run of so many cycles on an accepted sheet; none on a refused one.
fn ran(sheet: Vec<u8>, cycles: usize, random: &mut Random) -> Option<Ran> {
    let frame = Frame::of(&sheet)?;
    Ran::of(&good("", sheet, &frame, cycles, random))
}

/// T and the circuits of the bench cases on random stimuli, T on the longest.
fn bench_cases(to: &mut Comparer, random: &mut Random) -> Ended {
    for sheet in samples::bench_cases() {
        for k in 0..40 {
            let leaves = Frame::of(&sheet).map_or(1, |frame| frame.counts.len());
            let cycles = if k == 39 { LONGEST_STIMULUS / leaves } else { some_cycles(random) };
            let Some(ran) = ran(sheet.clone(), cycles, random) else { continue };
            to.good_replay(&ran.any(tally::BENCH, random), &ran)?;
            to.tally.add(tally::BENCH, 1);
        }
    }
    Ok(())
}

/// Every accepted named sheet but the slowest.
fn named_shapes(to: &mut Comparer, random: &mut Random) -> Ended {
    for (name, make) in shapes::all().filter(|(name, _)| *name != "three-slow-feedbacks-64") {
        for cycles in [0, 1, 3, 7] {
            let Some(ran) = ran(make(), cycles, random) else { continue };
            to.good_replay(&ran.any(name, random), &ran)?;
            to.tally.add(tally::SHAPES, 1);
        }
    }
    Ok(())
}

/// Accepted sheets: small types, all types, and limits.
fn accepted(to: &mut Comparer, calls: u64, random: &mut Random) -> Ended {
    let mut made = 0;
    while made < calls {
        let Some(draft) = with_limits(80, random) else { continue };
        let order = Order::any(random);
        let sheet = bytes(&layout_in(&draft, order, random));
        let Some(ran) = ran(sheet, some_cycles(random), random) else { continue };
        to.good_replay(&ran.any("accepted", random), &ran)?;
        to.tally.add(&laid_out(ORDERS[order as usize]), 1);
        made += 1;
    }
    Ok(())
}

/// Each code in turn, until every way to break a rule has enough; then records
/// that differ with wrong next slices.
fn refused(to: &mut Comparer, random: &mut Random) -> Ended {
    let need = tally::PER_CODE.div_ceil(SHARDS);
    for code in codes() {
        let ways = tally::ways(code);
        let mut hits = 0;
        for _ in 0..need * TRIES {
            let made = broken(&[code], &to.comparison.categories, random);
            let Some((case, made)) = made else { continue };
            if to.replays(&case)?.answer.code == code {
                hits += 1;
                made.into_iter().for_each(|way| to.tally.add(way, 1));
            }
            if hits >= need && ways.iter().all(|way| to.tally.got(way) >= share(way)) {
                break;
            }
        }
    }
    while to.tally.got(tally::DIFFERING_AND_LENGTH) < share(tally::DIFFERING_AND_LENGTH) {
        let sheet = sheet(&for_faults(random), random);
        let cycles = few_cycles(random).max(1);
        let Some(ran) = ran(sheet, cycles, random) else { continue };
        let mut case = ran.replay(tally::DIFFERING_AND_LENGTH, ran.altered(random));
        case.next_length = random.below(case.sheet.len() + 30);
        let refused = case.next_length != case.sheet.len();
        let code = to.replays(&case)?.answer.code;
        let hit = refused && case.recorded != ran.outputs && code == WRONG_NEXT_LENGTH;
        to.tally.add_if(tally::DIFFERING_AND_LENGTH, hit);
    }
    Ok(())
}

/// For each two codes, calls with a fault of either.
fn two_faults(to: &mut Comparer, random: &mut Random) -> Ended {
    for (first, other) in two_codes() {
        let need = least_of(first, other).div_ceil(SHARDS);
        for _ in 0..need * TRIES {
            let made = broken(&[first, other], &to.comparison.categories, random);
            let Some((case, _)) = made else { continue };
            let code = to.replays(&case)?.answer.code;
            let both = of_codes(first, other);
            to.tally.add_if(&both, code == first);
            if to.tally.got(&both) >= need {
                break;
            }
        }
    }
    Ok(())
}

/// Sheets changed at random, with the calls of the sheets before the change.
fn fuzzed(to: &mut Comparer, random: &mut Random) -> Ended {
    for k in 0..share(tally::FUZZED) {
        let draft = if k % 2 == 0 { for_faults(random) } else { small(random) };
        let mut records = layout(&draft, random);
        let Some(frame) = Frame::of(&bytes(&records)) else { continue };
        match k % 5 {
            0 => fuzz::change_words(&mut records, random),
            1 => fuzz::change_records(&mut records, random),
            _ => fuzz::change_types(&mut records, random),
        }
        let cycles = some_cycles(random);
        let run = good(tally::FUZZED, bytes(&records), &frame, cycles, random);
        to.replays(&with_record(run, random))?;
        to.tally.add(tally::FUZZED, 1);
    }
    Ok(())
}

/// Sheets of 4,096 records, the longest stimuli, and the longest record.
fn large(to: &mut Comparer, random: &mut Random) -> Ended {
    for _ in 0..share(tally::LONGEST) {
        let sheet = sheet(&circuit_of_records(MAX_RECORDS, random), random);
        let Some(ran) = ran(sheet, random.range(1, 3), random) else { continue };
        to.good_replay(&ran.any(tally::LONGEST, random), &ran)?;
        to.tally.add(tally::LONGEST, 1);
    }
    let many = to.tally.got(tally::MANY_CYCLES) + share(tally::MANY_CYCLES);
    while to.tally.got(tally::MANY_CYCLES) < many {
        let draft = if random.one_in(2) { circuit(random) } else { small(random) };
        let sheet = sheet(&draft, random);
        let Some(frame) = Frame::of(&sheet) else { continue };
        let cycles = LONGEST_STIMULUS / frame.counts.len();
        if cycles * record_count(&draft) < 1_000_000 {
            let Some(ran) = ran(sheet, cycles, random) else { continue };
            to.good_replay(&ran.any(tally::MANY_CYCLES, random), &ran)?;
        }
    }
    let Some(ran) = ran(bit_64_times(), LONGEST_STIMULUS, random) else { return Ok(()) };
    to.good_replay(&ran.replay(tally::MOST_BYTES, ran.outputs.clone()), &ran)?;
    let mut recorded = ran.outputs.clone();
    let at = recorded.len() - random.range(1, recorded.len() / 2);
    recorded[at] ^= 3;
    to.good_replay(&ran.replay(tally::MOST_BYTES, recorded), &ran)
}
