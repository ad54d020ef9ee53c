//! The parts of the comparison. The fixed sheets come first, then shards of
//! the random ones.

use super::case::Case;
use super::cases::Plain;
use super::circuits::rows;
use super::compare::Counts;
use super::counting::MOST_INPUTS;
use super::faults::broken;
use super::folds::fold;
use super::given_inputs::{circuit_on, copying};
use super::products::{counts_between, counts_of, inputs_of, with_ones};
use super::tally::{self, codes, two_codes, ALL, FIXED, MANY, MANY_FED_BACK, QUOTAS};
use crate::draft::Draft;
use crate::frame::comparison::{self, Ended, SHARDS, TRIES};
use crate::frame::tally::{laid_out, least, of_codes};
use crate::fuzz;
use crate::generate::circuits::circuit_of_records;
use crate::generate::decisions::decisions;
use crate::generate::mixed::{for_faults, with_limits};
use crate::generate::network::network;
use crate::generate::small::small;
use crate::layout::{layout, layout_in, sheet, Order, ORDERS};
use crate::one_cycle::tally::{FUZZED, LONGEST, SHAPES};
use crate::random::Random;
use crate::records::{bytes, read, A, MAX_RECORDS};
use crate::samples;
use crate::shapes;

type Comparer<'a> = comparison::Comparer<'a, Counts>;

/// The most evaluations of records that a count may take: of most random
/// sheets, of one in `SELDOM`, of large and named ones, and of those with
/// 65,536 inputs.
const EFFORT: usize = 10_000;
const GREATER: usize = 200_000;
const SELDOM: usize = 50;
const LARGE: usize = 1_000_000;
const LONG: usize = 6_000_000;

pub enum Job {
    Fixed,
    Rows,
    Shapes,
    Refused,
    TwoFaults,
    Accepted(u64),
    Many,
    All,
    Fuzzed,
    Large,
}

/// All jobs, in order.
pub fn in_order() -> Vec<Job> {
    let mut jobs = vec![Job::Fixed, Job::Rows, Job::Shapes];
    for _ in 0..SHARDS {
        let accepted = Job::Accepted(tally::ACCEPTED_COUNTS.div_ceil(SHARDS));
        jobs.extend([Job::Refused, Job::TwoFaults, accepted, Job::Many, Job::All]);
        jobs.extend([Job::Fuzzed, Job::Large]);
    }
    jobs
}

impl Job {
    pub fn run(&self, to: &mut Comparer, random: &mut Random) -> Ended {
        match self {
            Job::Fixed => fixed(to, random),
            Job::Rows => timed_circuits(to),
            Job::Shapes => named_shapes(to, random),
            Job::Refused => refused(to, random),
            Job::TwoFaults => two_faults(to, random),
            Job::Accepted(calls) => accepted(to, *calls, random),
            Job::Many => many(to, random),
            Job::All => all(to, random),
            Job::Fuzzed => fuzzed(to, random),
            Job::Large => large(to, random),
        }
    }
}

fn share(name: &str) -> u64 {
    least(&QUOTAS, name).div_ceil(SHARDS)
}

/// T and the circuits of the bench cases, T with its delay at other values, and
/// inputs that are copied: at the limit and past it, also by very much. On every
/// output leaf, and past them.
fn fixed(to: &mut Comparer, random: &mut Random) -> Ended {
    let inputs: [&[usize]; 10] = [
        &[1],
        &[255],
        &[1; 64],
        &[16; 4],
        &[2, 128, 1, 64, 4],
        &[4, 5, 29, 113],
        &[2; 17],
        &[2; 32],
        &[2; 64],
        &[255; 64],
    ];
    let copies = inputs.map(|counts| sheet(&copying(counts, random), random));
    let held = [0, 1].map(|value| {
        let mut records = read(&samples::t());
        records[4][A] = value;
        bytes(&records)
    });
    for sheet in samples::bench_cases().into_iter().chain(held).chain(copies) {
        let Some(plain) = Plain::of(&sheet) else { continue };
        let at = |leaf: usize| Case { source: FIXED.to_string(), sheet: sheet.clone(), leaf };
        for leaf in 0..plain.leaves {
            match plain.inputs <= MOST_INPUTS {
                true => to.good_count(&at(leaf))?,
                false => to.counts(&at(leaf)).map(|_| ())?,
            }
            to.tally.add(FIXED, 1);
        }
        for leaf in [plain.leaves, plain.leaves + 1, 1 << 32, usize::MAX] {
            to.counts(&at(leaf))?;
        }
    }
    Ok(())
}

/// The circuits that are timed.
fn timed_circuits(to: &mut Comparer) -> Ended {
    for row in rows() {
        to.good_count(&Case { source: row.name.to_string(), sheet: row.sheet, leaf: 0 })?;
    }
    Ok(())
}

/// Every accepted named sheet on which a count takes no long time.
fn named_shapes(to: &mut Comparer, random: &mut Random) -> Ended {
    for (name, make) in shapes::all() {
        let sheet = make();
        let Some(plain) = Plain::within(&sheet, LARGE) else { continue };
        to.good_count(&plain.any(name, sheet, random))?;
        to.tally.add(SHAPES, 1);
    }
    Ok(())
}

/// Each code in turn, until every way to break a rule has enough.
fn refused(to: &mut Comparer, random: &mut Random) -> Ended {
    let need = tally::PER_CODE.div_ceil(SHARDS);
    for code in codes() {
        let ways = tally::ways(code);
        let mut hits = 0;
        for _ in 0..need * TRIES {
            let made = broken(&[code], &to.comparison.categories, random);
            let Some((case, made)) = made else { continue };
            if to.counts(&case)?.answer.code == code {
                hits += 1;
                made.into_iter().for_each(|way| to.tally.add(way, 1));
            }
            if hits >= need && ways.iter().all(|way| to.tally.got(way) >= share(way)) {
                break;
            }
        }
    }
    Ok(())
}

/// For each two codes, calls with a fault of either.
fn two_faults(to: &mut Comparer, random: &mut Random) -> Ended {
    let need = tally::PER_TWO_CODES.div_ceil(SHARDS);
    for (low, high) in two_codes() {
        for _ in 0..need * TRIES {
            let made = broken(&[low, high], &to.comparison.categories, random);
            let Some((case, _)) = made else { continue };
            let code = to.counts(&case)?.answer.code;
            let both = of_codes(low, high);
            to.tally.add_if(&both, code == low);
            if to.tally.got(&both) >= need {
                break;
            }
        }
    }
    Ok(())
}

/// Compares a draft in any layout, if its inputs are counted within an effort;
/// whether they are.
fn laid(
    to: &mut Comparer,
    source: &str,
    draft: &Draft,
    effort: usize,
    random: &mut Random,
) -> Result<bool, comparison::Halt> {
    let order = Order::any(random);
    let sheet = bytes(&layout_in(draft, order, random));
    let Some(plain) = Plain::within(&sheet, effort) else { return Ok(false) };
    to.good_count(&plain.any(source, sheet, random))?;
    to.tally.add(&laid_out(ORDERS[order as usize]), 1);
    Ok(true)
}

/// Accepted sheets: folds, decisions, small types, all types, and limits.
fn accepted(to: &mut Comparer, calls: u64, random: &mut Random) -> Ended {
    let mut made = 0;
    while made < calls {
        let draft = match random.below(8) {
            0 | 1 => {
                let counts = counts_between(1, 64, random);
                Some(fold(&with_ones(counts, random), 8, random))
            }
            2 | 3 => Some(decisions(random)),
            _ => with_limits(100, random),
        };
        let Some(draft) = draft else { continue };
        let effort = if random.one_in(SELDOM) { GREATER } else { EFFORT };
        made += u64::from(laid(to, "accepted", &draft, effort, random)?);
    }
    Ok(())
}

/// Over 1,024 inputs, mostly a few thousand; some on a feedback of many leaves.
fn many(to: &mut Comparer, random: &mut Random) -> Ended {
    let mut made = 0;
    while made < share(MANY) {
        let high = if random.one_in(20) { MOST_INPUTS } else { 6_000 };
        let draft = circuit_on(counts_between(1_025, high, random), random);
        made += u64::from(laid(to, MANY, &draft, LARGE, random)?);
    }
    let mut with_feedback = 0;
    while with_feedback < share(MANY_FED_BACK) {
        let draft = network(random);
        if inputs_of(&draft) > 1_024 {
            with_feedback += u64::from(laid(to, MANY_FED_BACK, &draft, LONG, random)?);
        }
    }
    Ok(())
}

/// Exactly 65,536 inputs.
fn all(to: &mut Comparer, random: &mut Random) -> Ended {
    let mut made = 0;
    while made < share(ALL) {
        let Some(counts) = counts_of(MOST_INPUTS, random) else { continue };
        let draft = circuit_on(counts, random);
        made += u64::from(laid(to, ALL, &draft, LONG, random)?);
    }
    Ok(())
}

/// Sheets changed at random, with the calls of the sheets before the change.
fn fuzzed(to: &mut Comparer, random: &mut Random) -> Ended {
    let mut made = 0;
    while made < share(FUZZED) {
        let draft = if made % 2 == 0 { for_faults(random) } else { small(random) };
        let mut records = layout(&draft, random);
        let Some(plain) = Plain::within(&bytes(&records), EFFORT) else { continue };
        match made % 5 {
            0 => fuzz::change_words(&mut records, random),
            1 => fuzz::change_records(&mut records, random),
            _ => fuzz::change_types(&mut records, random),
        }
        let sheet = bytes(&records);
        let long = |plain: &Plain| plain.inputs <= MOST_INPUTS && plain.effort > GREATER;
        if Plain::of(&sheet).as_ref().is_some_and(long) {
            continue;
        }
        to.counts(&plain.any(FUZZED, sheet, random))?;
        to.tally.add(FUZZED, 1);
        made += 1;
    }
    Ok(())
}

/// Sheets of 4,096 records.
fn large(to: &mut Comparer, random: &mut Random) -> Ended {
    let mut made = 0;
    while made < share(LONGEST) {
        let sheet = sheet(&circuit_of_records(MAX_RECORDS, random), random);
        let Some(plain) = Plain::within(&sheet, LARGE) else { continue };
        to.good_count(&plain.any(LONGEST, sheet, random))?;
        to.tally.add(LONGEST, 1);
        made += 1;
    }
    Ok(())
}
