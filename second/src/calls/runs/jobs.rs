//! The parts of the comparison. The fixed sheets come first, then shards of
//! the random ones.

use super::case::Runs;
use super::cases::{few_cycles, good, Frame};
use super::faults::broken;
use super::good_calls::{compare_good, several};
use super::tally::{self, two_codes, QUOTAS};
use crate::answers::{WRONG_LENGTH, WRONG_NEXT_LENGTH};
use crate::faults::category::Category;
use crate::frame::comparison::{self, Ended, SHARDS, TRIES};
use crate::frame::tally::{laid_out, least, of_codes};
use crate::fuzz;
use crate::generate::circuits::{circuit, circuit_of_records};
use crate::generate::mixed::{for_faults, with_limits};
use crate::generate::small::small;
use crate::layout::{layout, layout_in, record_count, sheet, Order, ORDERS};
use crate::random::Random;
use crate::records::{bytes, MAX_RECORDS};
use crate::samples;
use crate::shapes;
use crate::stimulus::LONGEST_STIMULUS;

type Comparer<'a> = comparison::Comparer<'a, Runs>;

/// Feedbacks of types with no more values than this are compared with all
/// their fixed points.
const VALUES: usize = 81;

pub enum Job {
    Bench,
    Shapes,
    Accepted(u64),
    Refused,
    TwoFaults,
    Fuzzed,
    Large,
}

/// All jobs, in order.
pub fn in_order() -> Vec<Job> {
    let mut jobs = vec![Job::Bench, Job::Shapes];
    for _ in 0..SHARDS {
        let accepted = share(tally::SHEETS);
        jobs.extend([
            Job::Accepted(accepted),
            Job::Refused,
            Job::TwoFaults,
            Job::Fuzzed,
            Job::Large,
        ]);
    }
    jobs
}

impl Job {
    pub fn run(&self, to: &mut Comparer, categories: &[Category], random: &mut Random) -> Ended {
        match self {
            Job::Bench => bench_cases(to, random),
            Job::Shapes => named_shapes(to, random),
            Job::Accepted(sheets) => accepted(to, *sheets, random),
            Job::Refused => refused(to, categories, random),
            Job::TwoFaults => two_faults(to, categories, random),
            Job::Fuzzed => fuzzed(to, random),
            Job::Large => large(to, random),
        }
    }
}

fn share(name: &str) -> u64 {
    least(&QUOTAS, name).div_ceil(SHARDS)
}

/// T and the circuits of the bench cases on random stimuli, T on the longest.
fn bench_cases(to: &mut Comparer, random: &mut Random) -> Ended {
    for sheet in samples::bench_cases() {
        let Some(frame) = Frame::of(&sheet) else { continue };
        for k in 0..40 {
            let cycles =
                if k == 39 { LONGEST_STIMULUS / frame.counts.len() } else { few_cycles(random) };
            let case = good(tally::BENCH, sheet.clone(), &frame, cycles, random);
            compare_good(to, &case, &frame, VALUES)?;
            to.tally.add(tally::BENCH, 1);
        }
    }
    Ok(())
}

/// Every accepted named sheet but the slowest.
fn named_shapes(to: &mut Comparer, random: &mut Random) -> Ended {
    for (name, make) in shapes::all().filter(|(name, _)| *name != "three-slow-feedbacks-64") {
        let sheet = make();
        let Some(frame) = Frame::of(&sheet) else { continue };
        for cycles in [0, 1, 3, 7, 12] {
            let case = good(name, sheet.clone(), &frame, cycles, random);
            compare_good(to, &case, &frame, 0)?;
            to.tally.add(tally::SHAPES, 1);
        }
    }
    Ok(())
}

/// Accepted sheets: small types, all types, and limits.
fn accepted(to: &mut Comparer, sheets: u64, random: &mut Random) -> Ended {
    let mut made = 0;
    while made < sheets {
        let Some(draft) = with_limits(80, random) else { continue };
        let order = Order::any(random);
        let sheet = bytes(&layout_in(&draft, order, random));
        let Some(frame) = Frame::of(&sheet) else { continue };
        let case = good("accepted", sheet, &frame, few_cycles(random), random);
        let values = if random.one_in(3) { VALUES } else { 0 };
        compare_good(to, &case, &frame, values)?;
        to.tally.add(&laid_out(ORDERS[order as usize]), 1);
        made += u64::from(several(&case, &frame));
    }
    Ok(())
}

/// Each code in turn, until every way to break a rule has enough.
fn refused(to: &mut Comparer, categories: &[Category], random: &mut Random) -> Ended {
    for code in WRONG_LENGTH..=WRONG_NEXT_LENGTH {
        let need = tally::PER_CODE.div_ceil(SHARDS);
        let ways: Vec<&str> = tally::ways(code).collect();
        let mut hits = 0;
        for _ in 0..need * TRIES {
            let Some((case, made)) = broken(&[code], categories, random) else { continue };
            let outcome = to.runs(&case)?;
            hits += u64::from(outcome.answer.code == code);
            made.into_iter().for_each(|way| to.tally.add(way, 1));
            if hits >= need && ways.iter().all(|way| to.tally.got(way) >= share(way)) {
                break;
            }
        }
    }
    Ok(())
}

/// For each two codes, calls with a fault of either.
fn two_faults(to: &mut Comparer, categories: &[Category], random: &mut Random) -> Ended {
    let need = tally::PER_TWO_CODES.div_ceil(SHARDS);
    for (low, high) in two_codes() {
        for _ in 0..need * TRIES {
            let Some((case, _)) = broken(&[low, high], categories, random) else { continue };
            let outcome = to.runs(&case)?;
            let both = of_codes(low, high);
            to.tally.add_if(&both, outcome.answer.code == low);
            if to.tally.got(&both) >= need {
                break;
            }
        }
    }
    Ok(())
}

/// Sheets changed at random, with the calls of the sheets before the change.
fn fuzzed(to: &mut Comparer, random: &mut Random) -> Ended {
    for k in 0..share(tally::FUZZED) {
        let draft = if k % 2 == 0 { for_faults(random) } else { small(random) };
        let mut records = layout(&draft, random);
        let Some(frame) = Frame::of(&bytes(&records)) else { continue };
        match k % 5 {
            0 => fuzz::change_words(&mut records, random),
            1 => fuzz::change_records(&mut records, random),
            _ => fuzz::change_types(&mut records, random),
        }
        to.runs(&good(tally::FUZZED, bytes(&records), &frame, few_cycles(random), random))?;
        to.tally.add(tally::FUZZED, 1);
    }
    Ok(())
}

/// Sheets of 4,096 records, and the longest stimuli.
fn large(to: &mut Comparer, random: &mut Random) -> Ended {
    for _ in 0..share(tally::LONGEST) {
        let sheet = sheet(&circuit_of_records(MAX_RECORDS, random), random);
        let Some(frame) = Frame::of(&sheet) else { continue };
        let case = good(tally::LONGEST, sheet, &frame, random.range(2, 4), random);
        compare_good(to, &case, &frame, 0)?;
    }
    while to.tally.got(tally::MANY_CYCLES) < share(tally::MANY_CYCLES) {
        let draft = if random.one_in(2) { circuit(random) } else { small(random) };
        let sheet = sheet(&draft, random);
        let Some(frame) = Frame::of(&sheet) else { continue };
        let cycles = LONGEST_STIMULUS / frame.counts.len();
        if cycles * record_count(&draft) < 1_000_000 {
            let case = good(tally::MANY_CYCLES, sheet, &frame, cycles, random);
            compare_good(to, &case, &frame, 0)?;
        }
    }
    Ok(())
}
