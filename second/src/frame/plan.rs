//! A whole comparison: its jobs, its quotas, and the status it ends with.

use super::comparison::{Comparison, SHARDS};
use super::options::Options;
use super::report::FOUND;
use super::tally::{Quota, Tally};
use super::workers::{run_jobs, Round};

/// The statuses: nothing differs and every quota is met; a difference was found,
/// or of several mistakes one was not seen; the words are no command, or the one
/// mistake was not seen; a quota is not met.
pub const ALIKE: u8 = 0;
pub const DIFFERENCE: u8 = 1;
pub const NOT_SEEN: u8 = 2;
pub const UNMET: u8 = 3;

/// Whether so few cases are asked for that quotas are not looked at.
fn few<C: Comparison>(options: &Options<C::Mistake>) -> bool {
    options.cases.is_some_and(|cases| cases < C::LEAST)
}

/// Runs every job, and more cases where more are asked for; the counts, and the
/// report of the first difference.
fn compare<C: Comparison>(
    comparison: &C,
    options: &Options<C::Mistake>,
) -> (Tally, Option<String>) {
    let asked = options.cases.unwrap_or(0);
    let jobs = comparison.jobs();
    let most = match few::<C>(options) {
        true => asked.div_ceil(jobs.len() as u64),
        false => u64::MAX,
    };
    let first = Round { comparison, jobs: &jobs, number: 1, most };
    let (mut tally, mut difference) = run_jobs(&first, options);
    let missing = asked.saturating_sub(tally.compared);
    if difference.is_none() && missing > 0 && !few::<C>(options) {
        let cases = missing.div_ceil(SHARDS);
        let jobs: Vec<C::Job> = (0..SHARDS).filter_map(|_| comparison.more(cases)).collect();
        let second = Round { comparison, jobs: &jobs, number: 2, most };
        let (more, found) = run_jobs(&second, options);
        tally.merge(&more);
        difference = found;
    }
    comparison.complete(&mut tally);
    (tally, difference)
}

/// The comparison and the options that some words ask for.
fn read<C: Comparison>(words: &[&str]) -> Option<(Result<C, String>, Options<C::Mistake>)> {
    let (parameters, options) = words.split_at_checked(C::PARAMETERS.len())?;
    let options = Options::read(options, C::CASES, C::MISTAKES)?;
    Some((C::new(parameters), options))
}

fn fail(reason: &str) -> u8 {
    eprintln!("{reason}");
    NOT_SEEN
}

/// Compares as some words ask for.
pub fn run<C: Comparison>(words: &[&str]) -> Option<u8> {
    let (comparison, options) = read::<C>(words)?;
    Some(match comparison {
        Ok(comparison) => conclude(&comparison, &options),
        Err(reason) => fail(&reason),
    })
}

/// Compares; the status is 0 where nothing differs and every quota is met.
fn conclude<C: Comparison>(comparison: &C, options: &Options<C::Mistake>) -> u8 {
    println!("seed {}", options.seed);
    let (tally, difference) = compare(comparison, options);
    let (what, compared) = (C::WHAT, tally.compared);
    if let Some(report) = difference {
        print!("{report}");
        println!("after {compared} equal {what}");
        return DIFFERENCE;
    }
    if let Some((name, _)) = &options.mistake {
        println!("compared {compared} {what}, and the mistake {name} was not seen");
        return NOT_SEEN;
    }
    if few::<C>(options) {
        println!("quotas not looked at");
    } else {
        let least = options.cases.unwrap_or(0).max(C::LEAST);
        let unmet = unmet(comparison, tally, least);
        if !unmet.is_empty() {
            unmet.iter().for_each(|line| println!("quota not met: {line}"));
            println!("{} quotas not met", unmet.len());
            return UNMET;
        }
    }
    println!("compared {compared} {what}, 0 differences");
    ALIKE
}

/// Prints every count; the quotas that are not met.
fn unmet<C: Comparison>(comparison: &C, mut tally: Tally, least: u64) -> Vec<String> {
    let in_all = format!("{} in all", C::WHAT);
    tally.add(&in_all, tally.compared);
    let mut quotas = vec![Quota::new(in_all, least)];
    quotas.extend(comparison.quotas());
    tally.others(&quotas).iter().for_each(|line| println!("{line}"));
    let judged = quotas.iter().map(|quota| quota.judge(&tally));
    judged
        .filter_map(|(line, unmet)| {
            println!("{line}");
            unmet
        })
        .collect()
}

/// Compares once with each mistake; the status is 0 where there is one and a
/// difference was found with each.
pub fn mistakes<C: Comparison>(words: &[&str]) -> Option<u8> {
    let (comparison, mut options) = read::<C>(words)?;
    if options.mistake.is_some() || C::MISTAKES.is_empty() {
        return None;
    }
    let comparison = match comparison {
        Ok(comparison) => comparison,
        Err(reason) => return Some(fail(&reason)),
    };
    let mut missed = 0;
    for mistake in C::MISTAKES {
        options.mistake = Some(*mistake);
        let (tally, difference) = compare(&comparison, &options);
        let (name, compared) = (mistake.0, tally.compared);
        match difference.as_deref().and_then(|report| report.lines().next()) {
            Some(line) if line.starts_with(FOUND) => {
                println!("{name}: {line}, after {compared} equal {}", C::WHAT);
            }
            _ => {
                println!("{name}: not seen on {compared} {}", C::WHAT);
                missed += 1;
            }
        }
    }
    println!("{} mistakes, {missed} not seen", C::MISTAKES.len());
    Some(if missed == 0 { ALIKE } else { DIFFERENCE })
}
