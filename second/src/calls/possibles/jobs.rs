//! The parts of the comparison. The fixed sheets come first, then shards of
//! the random ones.

use super::cases::{call, ground};
use super::circuits::circuit;
use super::compare::Possibles;
use super::faults::broken;
use super::fillings::Fillable;
use super::fitting::fitted;
use super::remaining::{unfit, NOT_FOR_SETS};
use super::rows::rows;
use super::tally::{
    self, codes, two_codes, AT_FEEDBACK, AT_FLAT, FILLED, FILLED_HELD, FILLED_MANY,
};
use crate::answers::Answer;
use crate::draft::Draft;
use crate::frame::comparison::{self, Ended, SHARDS, TRIES};
use crate::frame::tally::{laid_out, least, of_codes};
use crate::fuzz;
use crate::generate::circuits::circuit_of_records;
use crate::generate::decisions::decisions;
use crate::generate::mixed::{for_faults, with_limits};
use crate::generate::small::small;
use crate::layout::{layout, layout_in, record_count, sheet, Order, ORDERS};
use crate::one_cycle::kind::Case;
use crate::one_cycle::tally::{BENCH, FUZZED, LONGEST, QUOTAS as COMMON, SHAPES};
use crate::random::Random;
use crate::records::{bytes, read, Record, FEEDBACK, KIND, MAX_RECORDS};
use crate::samples;
use crate::shapes;

type Comparer<'a> = comparison::Comparer<'a, Possibles>;

/// The most ways of filling that are all tried, and the most evaluations of
/// records for them: of most sheets, and of one in `SELDOM`.
const MOST_WAYS: usize = 4_096;
const EFFORT: usize = 10_000;
const GREATER: usize = 300_000;
const SELDOM: usize = 2;

pub enum Job {
    Bench,
    Shapes,
    Refused,
    TwoFaults,
    Accepted(u64),
    Filled,
    Fuzzed,
    Large,
}

/// All jobs, in order.
pub fn in_order() -> Vec<Job> {
    let mut jobs = vec![Job::Bench, Job::Shapes];
    for _ in 0..SHARDS {
        let accepted = Job::Accepted(tally::ACCEPTED_POSSIBLES.div_ceil(SHARDS));
        jobs.extend([Job::Refused, Job::TwoFaults, accepted, Job::Filled, Job::Fuzzed, Job::Large]);
    }
    jobs
}

impl Job {
    pub fn run(&self, to: &mut Comparer, random: &mut Random) -> Ended {
        match self {
            Job::Bench => bench_cases(to, random),
            Job::Shapes => named_shapes(to, random),
            Job::Refused => refused(to, random),
            Job::TwoFaults => two_faults(to, random),
            Job::Accepted(calls) => accepted(to, *calls, random),
            Job::Filled => filled(to, random),
            Job::Fuzzed => fuzzed(to, random),
            Job::Large => large(to, random),
        }
    }
}

/// How many of a name a shard makes.
fn share(name: &str) -> u64 {
    let own = least(&tally::QUOTAS, name);
    own.max(least(&COMMON, name)).div_ceil(SHARDS)
}

/// T, which is refused, and the circuits of the bench cases on random inputs.
fn bench_cases(to: &mut Comparer, random: &mut Random) -> Ended {
    for sheet in samples::bench_cases() {
        let Some(ground) = ground(&sheet) else { continue };
        for _ in 0..40 {
            to.filled_call(&call(&ground, BENCH, sheet.clone(), random))?;
            to.tally.add(BENCH, 1);
        }
    }
    Ok(())
}

/// Every named sheet that the check accepts, and those that are timed.
fn named_shapes(to: &mut Comparer, random: &mut Random) -> Ended {
    for (name, make) in shapes::all() {
        let sheet = make();
        let Some(ground) = ground(&sheet) else { continue };
        for _ in 0..4 {
            to.call(&call(&ground, name, sheet.clone(), random))?;
            to.tally.add(SHAPES, 1);
        }
    }
    for row in rows() {
        let Some(ground) = ground(&row.sheet) else { continue };
        to.call(&call(&ground, row.name, row.sheet, random))?;
    }
    Ok(())
}

/// Each code in turn, until every way to break a rule has enough.
fn refused(to: &mut Comparer, random: &mut Random) -> Ended {
    let need = tally::PER_CODE.div_ceil(SHARDS);
    for code in codes() {
        let mut ways = tally::ways(code).to_vec();
        if code == NOT_FOR_SETS {
            ways.extend([AT_FEEDBACK, AT_FLAT]);
        }
        let mut hits = 0;
        for _ in 0..need * TRIES {
            let made = broken(&[code], &to.comparison.categories, random);
            let Some((case, made)) = made else { continue };
            let answer = to.call(&case)?;
            if answer.code == code {
                hits += 1;
                made.into_iter().for_each(|way| to.tally.add(way, 1));
                told_at(to, &case, answer);
            }
            if hits >= need && ways.iter().all(|way| to.tally.got(way) >= share(way)) {
                break;
            }
        }
    }
    Ok(())
}

/// Counts by which of its two sorts of records a sheet that has both is refused.
fn told_at(to: &mut Comparer, case: &Case, answer: Answer) {
    if answer.code != NOT_FOR_SETS {
        return;
    }
    let records = read(&case.sheet);
    let fed_back = |record: &Record| record[KIND] == FEEDBACK;
    let told = fed_back(&records[answer.place as usize]);
    if records.iter().filter(|record| unfit(record)).any(|record| fed_back(record) != told) {
        to.tally.add(if told { AT_FEEDBACK } else { AT_FLAT }, 1);
    }
}

/// For each two codes, calls with a fault of either.
fn two_faults(to: &mut Comparer, random: &mut Random) -> Ended {
    for (first, other) in two_codes() {
        let need = tally::per_two_codes(first).div_ceil(SHARDS);
        for _ in 0..need * TRIES {
            let made = broken(&[first, other], &to.comparison.categories, random);
            let Some((case, _)) = made else { continue };
            let code = to.call(&case)?.code;
            let both = of_codes(first, other);
            to.tally.add_if(&both, code == first);
            if to.tally.got(&both) >= need {
                break;
            }
        }
    }
    Ok(())
}

/// A circuit that the call takes: its own kind, decisions, small types, all
/// types, and limits.
fn taken(random: &mut Random) -> Option<Draft> {
    let draft = match random.below(8) {
        0..=3 => Some(circuit(random)),
        4 => Some(decisions(random)),
        _ => with_limits(120, random),
    };
    let draft = fitted(draft?, random);
    (record_count(&draft) <= MAX_RECORDS).then_some(draft)
}

/// Calls that nothing refuses.
fn accepted(to: &mut Comparer, calls: u64, random: &mut Random) -> Ended {
    let mut made = 0;
    while made < calls {
        let Some(draft) = taken(random) else { continue };
        let order = Order::any(random);
        let sheet = bytes(&layout_in(&draft, order, random));
        let Some(ground) = ground(&sheet) else { continue };
        to.counted_call(&call(&ground, "accepted", sheet, random))?;
        to.tally.add(&laid_out(ORDERS[order as usize]), 1);
        made += 1;
    }
    Ok(())
}

/// Calls whose undefined leaves are filled in every way.
fn filled(to: &mut Comparer, random: &mut Random) -> Ended {
    while [FILLED, FILLED_MANY].iter().any(|name| to.tally.got(name) < share(name)) {
        let draft = if random.one_in(3) { small(random) } else { circuit(random) };
        let sheet = sheet(&fitted(draft, random), random);
        let Some(ground) = ground(&sheet) else { continue };
        let case = call(&ground, FILLED, sheet, random);
        let Some(filling) = Fillable::of(&case.sheet, &case.stimulus) else { continue };
        let ways = filling.ways();
        let effort = ways.saturating_mul(read(&case.sheet).len());
        let most = if random.one_in(SELDOM) { GREATER } else { EFFORT };
        if !(2..=MOST_WAYS).contains(&ways) || effort > most {
            continue;
        }
        to.filled_call(&case)?;
        to.tally.add(FILLED, 1);
        to.tally.add_if(FILLED_MANY, ways > 256);
        to.tally.add_if(FILLED_HELD, filling.gaps.len() > filling.gaps_of_input());
    }
    Ok(())
}

/// Sheets changed at random, with the calls of the sheets before the change.
fn fuzzed(to: &mut Comparer, random: &mut Random) -> Ended {
    let mut made = 0;
    while made < share(FUZZED) {
        let draft = if made % 2 == 0 { for_faults(random) } else { small(random) };
        let mut records = layout(&fitted(draft, random), random);
        let Some(ground) = ground(&bytes(&records)) else { continue };
        match made % 5 {
            0 => fuzz::change_words(&mut records, random),
            1 => fuzz::change_records(&mut records, random),
            _ => fuzz::change_types(&mut records, random),
        }
        to.call(&call(&ground, FUZZED, bytes(&records), random))?;
        to.tally.add(FUZZED, 1);
        made += 1;
    }
    Ok(())
}

/// Sheets of 4,096 records, filled up with flat types.
fn large(to: &mut Comparer, random: &mut Random) -> Ended {
    let mut made = 0;
    while made < share(LONGEST) {
        let records = random.range(MAX_RECORDS / 2, MAX_RECORDS - 400);
        let mut draft = fitted(circuit_of_records(records, random), random);
        for _ in record_count(&draft)..MAX_RECORDS {
            let flat = draft.loose_flat(random.range(1, 64) as u16);
            let at = random.below(draft.chain.len() + 1);
            draft.chain.insert(at, flat);
        }
        let sheet = sheet(&draft, random);
        let Some(ground) = ground(&sheet) else { continue };
        to.counted_call(&call(&ground, LONGEST, sheet, random))?;
        to.tally.add(LONGEST, 1);
        made += 1;
    }
    Ok(())
}
