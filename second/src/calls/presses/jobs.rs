//! The parts of the comparison. The fixed sheets come first, then shards of
//! the random ones.

use super::cases::Plain;
use super::compare::Presses;
use super::faults::broken;
use super::tally::{self, codes, two_codes, QUOTAS};
use crate::answers::ILL_TYPED;
use crate::frame::comparison::{self, Ended, SHARDS, TRIES};
use crate::frame::tally::{laid_out, least, of_codes};
use crate::fuzz;
use crate::generate::circuits::circuit_of_records;
use crate::generate::decisions::decisions;
use crate::generate::mixed::{for_faults, with_limits};
use crate::generate::small::small;
use crate::layout::{layout, layout_in, sheet, Order, ORDERS};
use crate::one_cycle::tally::{BENCH, FUZZED, LONGEST, SHAPES};
use crate::random::Random;
use crate::records::{bytes, MAX_RECORDS};
use crate::samples;
use crate::shapes;

type Comparer<'a> = comparison::Comparer<'a, Presses>;

/// The most evaluations of records that all trials of a press may take: of most
/// random sheets, of one in `SELDOM`, and of large and named ones.
const EFFORT: usize = 20_000;
const GREATER: usize = 500_000;
const LARGE: usize = 4_000_000;
const SELDOM: usize = 50;

pub enum Job {
    Bench,
    Shapes,
    Refused,
    TwoFaults,
    Accepted(u64),
    Fuzzed,
    Large,
}

/// All jobs, in order.
pub fn in_order() -> Vec<Job> {
    let mut jobs = vec![Job::Bench, Job::Shapes];
    for _ in 0..SHARDS {
        let accepted = Job::Accepted(tally::ACCEPTED_PRESSES.div_ceil(SHARDS));
        jobs.extend([Job::Refused, Job::TwoFaults, accepted, Job::Fuzzed, Job::Large]);
    }
    jobs
}

impl Job {
    pub fn run(&self, to: &mut Comparer, random: &mut Random) -> Ended {
        match self {
            Job::Bench => bench_cases(to, random),
            Job::Shapes => named_shapes(to, random),
            Job::Refused => refused(to, random),
            Job::TwoFaults => two_faults(to, random),
            Job::Accepted(calls) => accepted(to, *calls, random),
            Job::Fuzzed => fuzzed(to, random),
            Job::Large => large(to, random),
        }
    }
}

fn share(name: &str) -> u64 {
    least(&QUOTAS, name).div_ceil(SHARDS)
}

/// T and the circuits of the bench cases on random inputs.
fn bench_cases(to: &mut Comparer, random: &mut Random) -> Ended {
    for sheet in samples::bench_cases() {
        let Some(plain) = Plain::of(&sheet) else { continue };
        for _ in 0..40 {
            to.good_press(&plain.good(BENCH, sheet.clone(), random))?;
            to.tally.add(BENCH, 1);
        }
    }
    Ok(())
}

/// Every accepted named sheet on which a press takes no long time.
fn named_shapes(to: &mut Comparer, random: &mut Random) -> Ended {
    for (name, make) in shapes::all() {
        let sheet = make();
        let Some(plain) = Plain::of(&sheet).filter(|plain| plain.effort() <= LARGE) else {
            continue;
        };
        to.good_press(&plain.good(name, sheet, random))?;
        to.tally.add(SHAPES, 1);
    }
    Ok(())
}

/// Each code in turn, until every way to break a rule has enough.
fn refused(to: &mut Comparer, random: &mut Random) -> Ended {
    let need = tally::PER_CODE.div_ceil(SHARDS);
    for code in codes() {
        let ways = if code <= ILL_TYPED { &[] } else { tally::ways(code) };
        let mut hits = 0;
        for _ in 0..need * TRIES {
            let made = broken(&[code], &to.comparison.categories, random);
            let Some((case, made)) = made else { continue };
            if to.presses(&case)?.answer.code == code {
                hits += 1;
                made.into_iter().for_each(|way| to.tally.add(way, 1));
            }
            if hits >= need && ways.iter().all(|way| to.tally.got(way) >= share(way)) {
                break;
            }
        }
    }
    Ok(())
}

/// For each two codes, calls with a fault of either.
fn two_faults(to: &mut Comparer, random: &mut Random) -> Ended {
    let need = tally::PER_TWO_CODES.div_ceil(SHARDS);
    for (low, high) in two_codes() {
        for _ in 0..need * TRIES {
            let made = broken(&[low, high], &to.comparison.categories, random);
            let Some((case, _)) = made else { continue };
            let code = to.presses(&case)?.answer.code;
            let both = of_codes(low, high);
            to.tally.add_if(&both, code == low);
            if to.tally.got(&both) >= need {
                break;
            }
        }
    }
    Ok(())
}

/// Accepted sheets: decisions, small types, all types, and limits.
fn accepted(to: &mut Comparer, calls: u64, random: &mut Random) -> Ended {
    let mut made = 0;
    while made < calls {
        let draft = match random.below(4) {
            0 => Some(decisions(random)),
            _ => with_limits(100, random),
        };
        let Some(draft) = draft else { continue };
        let order = Order::any(random);
        let sheet = bytes(&layout_in(&draft, order, random));
        let most = if random.one_in(SELDOM) { GREATER } else { EFFORT };
        let Some(plain) = Plain::of(&sheet).filter(|plain| plain.effort() <= most) else {
            continue;
        };
        to.good_press(&plain.good("accepted", sheet, random))?;
        to.tally.add(&laid_out(ORDERS[order as usize]), 1);
        made += 1;
    }
    Ok(())
}

/// Sheets changed at random, with the calls of the sheets before the change.
fn fuzzed(to: &mut Comparer, random: &mut Random) -> Ended {
    for k in 0..share(FUZZED) {
        let (plain, mut records) = loop {
            let draft = if k % 2 == 0 { for_faults(random) } else { small(random) };
            let records = layout(&draft, random);
            match Plain::of(&bytes(&records)).filter(|plain| plain.effort() <= EFFORT) {
                Some(plain) => break (plain, records),
                None => continue,
            }
        };
        match k % 5 {
            0 => fuzz::change_words(&mut records, random),
            1 => fuzz::change_records(&mut records, random),
            _ => fuzz::change_types(&mut records, random),
        }
        to.presses(&plain.any(FUZZED, bytes(&records), random))?;
        to.tally.add(FUZZED, 1);
    }
    Ok(())
}

/// Sheets of 4,096 records.
fn large(to: &mut Comparer, random: &mut Random) -> Ended {
    let mut made = 0;
    while made < share(LONGEST) {
        let sheet = sheet(&circuit_of_records(MAX_RECORDS, random), random);
        let Some(plain) = Plain::of(&sheet).filter(|plain| plain.effort() <= LARGE) else {
            continue;
        };
        to.good_press(&plain.good(LONGEST, sheet, random))?;
        to.tally.add(LONGEST, 1);
        made += 1;
    }
    Ok(())
}
