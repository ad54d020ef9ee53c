//! The parts of the comparison. The fixed sheets come first, then shards of
//! the random ones.

use super::case::Checks;
use super::fixed_sheets;
use super::tally::{self, CODES, QUOTAS};
use crate::answers::{self, Answer, ILL_TYPED, WRONG_LENGTH};
use crate::draft::Draft;
use crate::faults::category::{faulty, faulty_in, Category};
use crate::frame::comparison::{self, Ended, SHARDS, TRIES};
use crate::frame::tally::{least, of_codes};
use crate::fuzz;
use crate::generate::boundary::{deepen, nest, nest_bodies, widen};
use crate::generate::circuits::{circuit, circuit_of_records};
use crate::generate::mixed::for_faults;
use crate::labels::{labels, repeated};
use crate::layout::{layout, sheet};
use crate::random::Random;
use crate::records::{bytes, read, Record, KIND, KINDS};
use crate::structure::choices_on;

type Comparer<'a> = comparison::Comparer<'a, Checks>;

pub enum Job {
    Shapes,
    Lengths,
    Prefixes,
    Bytes,
    Boundaries,
    Accepted,
    Faults,
    TwoFaults,
    Headers,
    Long,
    Fuzz,
    Extra(u64),
}

/// All jobs, in order.
pub fn in_order() -> Vec<Job> {
    let mut jobs = vec![Job::Shapes, Job::Lengths, Job::Prefixes, Job::Bytes];
    for _ in 0..SHARDS {
        jobs.extend([
            Job::Boundaries,
            Job::Faults,
            Job::Accepted,
            Job::TwoFaults,
            Job::Headers,
            Job::Fuzz,
            Job::Long,
        ]);
    }
    jobs
}

impl Job {
    pub fn run(&self, to: &mut Comparer, categories: &[Category], random: &mut Random) -> Ended {
        match self {
            Job::Shapes => fixed_sheets::named_shapes(to),
            Job::Lengths => fixed_sheets::lengths(to, random),
            Job::Prefixes => fixed_sheets::prefixes(to),
            Job::Bytes => fixed_sheets::byte_changes(to),
            Job::Boundaries => boundaries(to, random),
            Job::Accepted => accepted(to, random),
            Job::Faults => single_faults(to, categories, random),
            Job::TwoFaults => two_faults(to, categories, random),
            Job::Headers => headers(to, random),
            Job::Long => long(to, categories, random),
            Job::Fuzz => changed(to, random),
            Job::Extra(sheets) => extras(to, *sheets, random),
        }
    }
}

fn share(name: &str) -> u64 {
    least(&QUOTAS, name).div_ceil(SHARDS)
}

/// Counts the kinds in an accepted sheet with over 30 records, patterns that
/// several IFs name, and labels.
fn count_kinds(to: &mut Comparer, records: &[Record], verdict: Answer) {
    let accepted = verdict.code == answers::ACCEPTED;
    let most = choices_on(records).into_iter().max().unwrap_or(0);
    to.tally.add_if(tally::SHARED, accepted && most == 2);
    to.tally.add_if(tally::SHARED_BY_MORE, accepted && most > 2);
    let labels = labels(&bytes(records));
    to.tally.add_if(tally::LABELLED, accepted && labels.iter().any(|&label| label != 0));
    to.tally.add_if(tally::LABELLED_TWICE, accepted && !repeated(&labels).is_empty());
    let large = records.len() > 30;
    if !large {
        return;
    }
    to.tally.aim(tally::ACCEPTED, accepted);
    for kind in &KINDS {
        let has = records.iter().any(|record| record[KIND] == *kind);
        to.tally.add_if(&tally::with_kind(*kind), has && accepted);
    }
}

fn accepted(to: &mut Comparer, random: &mut Random) -> Ended {
    let need = share(tally::ACCEPTED);
    for _ in 0..need * TRIES {
        let records = layout(&circuit(random), random);
        let verdict = to.verdict("accepted", &bytes(&records))?;
        count_kinds(to, &records, verdict);
        if to.tally.got(tally::ACCEPTED) >= need {
            break;
        }
    }
    Ok(())
}

/// Circuits brought exactly to a limit: all accepted.
fn boundaries(to: &mut Comparer, random: &mut Random) -> Ended {
    type Change = fn(&mut Draft, &mut Random) -> bool;
    let changes: [(&'static str, Change); 4] = [
        (tally::DEPTH_64, |draft, random| deepen(draft, 64, random)),
        (tally::NESTING_3, |draft, random| nest(draft, 3, random)),
        (tally::LEAVES_64, |draft, random| widen(draft, 64, random) > 0),
        (tally::BODIES, |draft, random| nest_bodies(draft, 12, random)),
    ];
    for (name, change) in changes {
        for _ in 0..share(name) * TRIES {
            let mut draft = circuit(random);
            if !change(&mut draft, random) {
                continue;
            }
            let sheet = sheet(&draft, random);
            if sheet.len() > 49_152 {
                continue;
            }
            let verdict = to.verdict(name, &sheet)?;
            to.tally.aim(name, verdict.code == answers::ACCEPTED);
            if to.tally.got(name) >= share(name) {
                break;
            }
        }
    }
    Ok(())
}

/// Each category in turn on each circuit, until all have enough.
fn single_faults(to: &mut Comparer, categories: &[Category], random: &mut Random) -> Ended {
    let need = tally::PER_CATEGORY.div_ceil(SHARDS);
    for _ in 0..need * TRIES {
        let draft = for_faults(random);
        let records = layout(&draft, random);
        let mut all = true;
        for category in categories {
            let name = tally::of_category(category);
            if to.tally.got(&name) >= need {
                continue;
            }
            all = false;
            if let Some(sheet) = faulty_in(&draft, &records, category, random) {
                let verdict = to.verdict(&category.name, &sheet)?;
                to.tally.aim(&name, verdict.code == category.code);
            }
        }
        if all {
            break;
        }
    }
    Ok(())
}

/// For each two codes, sheets with a fault of either.
fn two_faults(to: &mut Comparer, categories: &[Category], random: &mut Random) -> Ended {
    let need = tally::PER_TWO_CODES.div_ceil(SHARDS);
    let of_code = |code: u8| categories.iter().filter(move |c| c.code == code).collect::<Vec<_>>();
    let by_code: Vec<Vec<&Category>> = (answers::ACCEPTED..=ILL_TYPED).map(of_code).collect();
    for (low, high) in CODES {
        let (lower, higher) = (&by_code[usize::from(low)], &by_code[usize::from(high)]);
        for _ in 0..need * TRIES {
            let mut faults: Vec<&Category> = vec![higher[random.below(higher.len())]];
            faults.extend(random.pick(lower));
            let Some(mut sheet) = faulty(&for_faults(random), &faults, random) else { continue };
            if low == WRONG_LENGTH {
                sheet.truncate(sheet.len() - random.range(1, 11));
            }
            let names: Vec<&str> = faults.iter().map(|c| c.name.as_str()).collect();
            let verdict = to.verdict(&names.join("; "), &sheet)?;
            let both = of_codes(low, high);
            to.tally.add_if(&both, verdict.code == low);
            if to.tally.got(&both) >= need {
                break;
            }
        }
    }
    Ok(())
}

fn headers(to: &mut Comparer, random: &mut Random) -> Ended {
    for _ in 0..share(tally::HEADERS) {
        let mut records = layout(&for_faults(random), random);
        fuzz::change_header(&mut records, random);
        to.verdict(tally::HEADERS, &bytes(&records))?;
        to.tally.add(tally::HEADERS, 1);
    }
    Ok(())
}

/// Sheets of 4,095, 4,096 and 4,097 records, and faults in some of them.
fn long(to: &mut Comparer, categories: &[Category], random: &mut Random) -> Ended {
    let sizes = [
        (tally::SHORTER, 4095, answers::ACCEPTED),
        (tally::LONGEST, 4096, answers::ACCEPTED),
        (tally::TOO_LONG, 4097, WRONG_LENGTH),
    ];
    for (name, records, code) in sizes {
        for _ in 0..share(name) {
            let draft = circuit_of_records(records, random);
            let verdict = to.verdict(name, &sheet(&draft, random))?;
            to.tally.aim(name, verdict.code == code);
            let mut made = 0;
            while records == 4096 && made < share(tally::LONG_FAULTS) / share(name) {
                let category = &categories[random.below(categories.len())];
                let Some(sheet) = faulty(&draft, &[category], random) else { continue };
                to.verdict(&category.name, &sheet)?;
                to.tally.add(tally::LONG_FAULTS, 1);
                made += 1;
            }
        }
    }
    Ok(())
}

fn changed(to: &mut Comparer, random: &mut Random) -> Ended {
    type Change = fn(&mut Random) -> Vec<u8>;
    let changes: [(&'static str, Change); 5] = [
        (tally::CHANGED_WORDS, |random| {
            on_records(random, |r, random| fuzz::change_words(r, random))
        }),
        (tally::CHANGED_TYPES, |random| {
            on_records(random, |r, random| fuzz::change_types(r, random))
        }),
        (tally::CHANGED_RECORDS, |random| on_records(random, fuzz::change_records)),
        (tally::RANDOM_RECORDS, |random| bytes(&fuzz::random_records(random))),
        (tally::RANDOM_BYTES, |random| {
            let length = random.below(400);
            fuzz::random_bytes(length, random)
        }),
    ];
    for (name, change) in changes {
        for _ in 0..share(name) {
            to.verdict(name, &change(random))?;
            to.tally.add(name, 1);
        }
    }
    Ok(())
}

/// A random accepted sheet, changed.
fn on_records(random: &mut Random, change: fn(&mut Vec<Record>, &mut Random)) -> Vec<u8> {
    let mut records = layout(&for_faults(random), random);
    change(&mut records, random);
    bytes(&records)
}

fn extras(to: &mut Comparer, sheets: u64, random: &mut Random) -> Ended {
    for k in 0..sheets {
        let sheet = match k % 3 {
            0 => sheet(&circuit(random), random),
            1 => on_records(random, |r, random| fuzz::change_words(r, random)),
            _ => on_records(random, |r, random| fuzz::change_types(r, random)),
        };
        let verdict = to.verdict("extra", &sheet)?;
        if k % 3 == 0 {
            count_kinds(to, &read(&sheet), verdict);
        }
    }
    Ok(())
}
