//! The parts of the comparison. The fixed sheets come first, then shards of
//! the random ones.

use super::cases::Ground;
use super::compare::OneCycle;
use super::faults::broken;
use super::kind::Kind;
use super::tally::{self, codes, two_codes, QUOTAS};
use crate::answers::ILL_TYPED;
use crate::faults::category::Category;
use crate::frame::comparison::{self, Ended, SHARDS, TRIES};
use crate::frame::tally::{laid_out, least, of_codes};
use crate::fuzz;
use crate::generate::circuits::circuit_of_records;
use crate::generate::mixed::{for_faults, with_limits};
use crate::generate::small::small;
use crate::layout::{layout, layout_in, sheet, Order, ORDERS};
use crate::random::Random;
use crate::records::{bytes, MAX_RECORDS};
use crate::samples;
use crate::shapes;

type Comparer<'a, K> = comparison::Comparer<'a, OneCycle<K>>;

pub enum Job {
    Bench,
    Shapes,
    Refused,
    TwoFaults,
    Accepted(u64),
    Fuzzed,
    Large,
}

/// All jobs, in order.
pub fn in_order(least: u64) -> Vec<Job> {
    let mut jobs = vec![Job::Bench, Job::Shapes];
    for _ in 0..SHARDS {
        let accepted = least.div_ceil(SHARDS);
        jobs.extend([
            Job::Refused,
            Job::TwoFaults,
            Job::Accepted(accepted),
            Job::Fuzzed,
            Job::Large,
        ]);
    }
    jobs
}

impl Job {
    pub fn run<K: Kind>(
        &self,
        to: &mut Comparer<K>,
        categories: &[Category],
        random: &mut Random,
    ) -> Ended {
        match self {
            Job::Bench => bench_cases(to, random),
            Job::Shapes => named_shapes(to, random),
            Job::Refused => refused(to, categories, random),
            Job::TwoFaults => two_faults(to, categories, random),
            Job::Accepted(calls) => accepted(to, *calls, random),
            Job::Fuzzed => fuzzed(to, random),
            Job::Large => large(to, random),
        }
    }
}

fn share(name: &str) -> u64 {
    least(&QUOTAS, name).div_ceil(SHARDS)
}

/// T and the circuits of the bench cases on random inputs.
fn bench_cases<K: Kind>(to: &mut Comparer<K>, random: &mut Random) -> Ended {
    for sheet in samples::bench_cases() {
        let Some(ground) = Ground::of::<K>(&sheet) else { continue };
        for _ in 0..40 {
            to.good_call(&ground.good(tally::BENCH, sheet.clone(), random))?;
            to.tally.add(tally::BENCH, 1);
        }
    }
    Ok(())
}

/// Every accepted named sheet but the slowest.
fn named_shapes<K: Kind>(to: &mut Comparer<K>, random: &mut Random) -> Ended {
    for (name, make) in shapes::all().filter(|(name, _)| *name != "three-slow-feedbacks-64") {
        let sheet = make();
        let Some(ground) = Ground::of::<K>(&sheet) else { continue };
        for _ in 0..5 {
            to.good_call(&ground.good(name, sheet.clone(), random))?;
            to.tally.add(tally::SHAPES, 1);
        }
    }
    Ok(())
}

/// Each code in turn, until every way to break a rule has enough.
fn refused<K: Kind>(to: &mut Comparer<K>, categories: &[Category], random: &mut Random) -> Ended {
    for code in codes::<K>() {
        let need = tally::PER_CODE.div_ceil(SHARDS);
        let ways = if code <= ILL_TYPED { &[] } else { tally::ways(code) };
        let mut hits = 0;
        for _ in 0..need * TRIES {
            let Some((case, made)) = broken::<K>(&[code], categories, random) else { continue };
            if to.call(&case)?.code == code {
                hits += 1;
                made.into_iter().for_each(|way| to.tally.add(way, 1));
            }
            if hits >= need && ways.iter().all(|way| to.tally.got(way) >= share(way)) {
                break;
            }
        }
    }
    Ok(())
}

/// For each two codes, calls with a fault of either.
fn two_faults<K: Kind>(
    to: &mut Comparer<K>,
    categories: &[Category],
    random: &mut Random,
) -> Ended {
    let need = tally::PER_TWO_CODES.div_ceil(SHARDS);
    for (low, high) in two_codes::<K>() {
        for _ in 0..need * TRIES {
            let made = broken::<K>(&[low, high], categories, random);
            let Some((case, _)) = made else { continue };
            let code = to.call(&case)?.code;
            let both = of_codes(low, high);
            to.tally.add_if(&both, code == low);
            if to.tally.got(&both) >= need {
                break;
            }
        }
    }
    Ok(())
}

/// Accepted sheets: small types, all types, and limits.
fn accepted<K: Kind>(to: &mut Comparer<K>, calls: u64, random: &mut Random) -> Ended {
    let mut made = 0;
    while made < calls {
        let Some(draft) = with_limits(100, random) else { continue };
        let order = Order::any(random);
        let sheet = bytes(&layout_in(&draft, order, random));
        let Some(ground) = Ground::of::<K>(&sheet) else { continue };
        to.good_call(&ground.good("accepted", sheet, random))?;
        to.tally.add(&laid_out(ORDERS[order as usize]), 1);
        made += 1;
    }
    Ok(())
}

/// Sheets changed at random, with the calls of the sheets before the change.
fn fuzzed<K: Kind>(to: &mut Comparer<K>, random: &mut Random) -> Ended {
    for k in 0..share(tally::FUZZED) {
        let draft = if k % 2 == 0 { for_faults(random) } else { small(random) };
        let mut records = layout(&draft, random);
        let Some(ground) = Ground::of::<K>(&bytes(&records)) else { continue };
        match k % 5 {
            0 => fuzz::change_words(&mut records, random),
            1 => fuzz::change_records(&mut records, random),
            _ => fuzz::change_types(&mut records, random),
        }
        to.call(&ground.good(tally::FUZZED, bytes(&records), random))?;
        to.tally.add(tally::FUZZED, 1);
    }
    Ok(())
}

/// Sheets of 4,096 records.
fn large<K: Kind>(to: &mut Comparer<K>, random: &mut Random) -> Ended {
    for _ in 0..share(tally::LONGEST) {
        let sheet = sheet(&circuit_of_records(MAX_RECORDS, random), random);
        let Some(ground) = Ground::of::<K>(&sheet) else { continue };
        to.good_call(&ground.good(tally::LONGEST, sheet, random))?;
        to.tally.add(tally::LONGEST, 1);
    }
    Ok(())
}
