//! Comparisons of two runs. Of most of them the first is to be at or below the
//! second: every output leaf, and each delay leaf of the next sheets, which
//! differ in these alone.

use std::fmt::Write;
use std::marker::PhantomData;

use super::case::{Case, ROOMS};
use super::mistakes::{run_by, RunMistake};
use crate::answers::Answer;
use crate::frame::comparison::{self, Comparer, Comparison, Ended, Halt, SHARDS};
use crate::frame::lender::{Left, Lender};
use crate::frame::report;
use crate::frame::tally::Quota;
use crate::order::{delay_values, only_delays_differ};
use crate::random::Random;
use crate::rule::Rule;
use crate::values::at_or_below;
use crate::watch::Watch;

/// Two runs that are compared, and what they leave.
pub struct Pair {
    pub cases: [Case; 2],
    pub left: [Ran; 2],
    /// Whether the archive altered what it may not.
    pub altered: bool,
}

/// What one run answers and leaves in the two slices it was lent.
pub struct Ran {
    pub packed: u64,
    pub outputs: Vec<u8>,
    pub next: Vec<u8>,
}

/// What is compared: how two runs are made, what is counted of them, and what
/// is wrong with them, in words.
pub trait Pairs: Sync {
    const COMMAND: &'static str;
    const WHAT: &'static str;
    const CASES: &'static str;
    const LEAST: u64;
    const QUOTAS: &'static [(&'static str, u64)];
    const MISTAKES: &'static [(&'static str, RunMistake)];
    /// The functions of the archive that are compared.
    const CALLS: &'static [&'static str] = &["sheet_run"];

    fn make(lender: &mut Lender, mistake: Option<RunMistake>, random: &mut Random) -> Option<Pair>;

    fn counts(pair: &Pair) -> Vec<(&'static str, bool)>;

    fn faults(pair: &Pair) -> Vec<String> {
        pair.out_of_order()
    }
}

/// What the archive's run leaves, and whether it altered what it may not.
pub fn archive_run(lender: &mut Lender, case: &Case) -> (Ran, bool) {
    let (read, lengths) =
        ([&case.sheet[..], &case.stimulus], [case.output_length, case.next_length]);
    let lending = lender.lend(&read, &lengths, 1, <Case as comparison::Case>::archive);
    let Left { packed, slices } = lending.left;
    let [outputs, next] = slices.try_into().unwrap_or_else(|_| unreachable!("two slices"));
    (Ran { packed, outputs, next }, lending.altered)
}

/// What the second simulator's run leaves of a call that keeps every rule.
pub fn second_run(rule: Rule, case: &Case, mistake: Option<RunMistake>) -> Ran {
    let outcome = run_by(rule, &case.call(), mistake, &mut Watch::nothing());
    Ran {
        packed: outcome.answer.packed(),
        outputs: outcome.outputs.unwrap_or_default(),
        next: outcome.next.unwrap_or_default(),
    }
}

impl Pair {
    /// Both runs by the archive, or by the second simulator with a mistake.
    pub fn of(
        cases: [Case; 2],
        lender: &mut Lender,
        mistake: Option<RunMistake>,
        rule: Rule,
    ) -> Pair {
        let mut altered = false;
        let left = [0, 1].map(|k| match mistake {
            None => {
                let (left, wrong) = archive_run(lender, &cases[k]);
                altered |= wrong;
                left
            }
            mistake => second_run(rule, &cases[k], mistake),
        });
        Pair { cases, left, altered }
    }

    pub fn outputs_lower(&self) -> bool {
        self.left[0].outputs != self.left[1].outputs
    }

    pub fn delays_lower(&self) -> bool {
        self.left[0].next != self.left[1].next
    }

    /// What is wrong where the first is to be at or below the second.
    pub fn out_of_order(&self) -> Vec<String> {
        let [first, second] = &self.left;
        let plain = [
            (self.altered, "the archive's run altered bytes that it may not"),
            (first.packed != second.packed, "the answers differ"),
            (!Answer::accepts(first.packed), "the runs are refused"),
            (first.outputs.len() != second.outputs.len(), "the output slices differ in length"),
        ];
        let mut faults: Vec<String> =
            plain.iter().filter(|(wrong, _)| *wrong).map(|(_, words)| words.to_string()).collect();
        if let Some(at) = not_below(&first.outputs, &second.outputs) {
            faults.push(format!("output leaf {at} of the first is not at or below the second's"));
        }
        if !only_delays_differ(&first.next, &second.next) {
            faults.push("the next sheets differ in more than delay leaves".to_string());
        } else if let Some(at) = not_below(&delay_values(&first.next), &delay_values(&second.next))
        {
            faults.push(format!("delay leaf {at} of the first is not at or below the second's"));
        }
        faults
    }

    fn report(&self, faults: &[String]) -> String {
        let mut text = format!("{}, in: {}\n", report::FOUND, self.cases[0].source);
        for ((case, ran), name) in self.cases.iter().zip(&self.left).zip(["first:  ", "second: "]) {
            for (name, shown, bytes) in comparison::Case::read(case) {
                text.push_str(&report::slice(name, shown, bytes));
            }
            let slices = vec![ran.outputs.clone(), ran.next.clone()];
            let left = Left { packed: ran.packed, slices };
            text.push_str(&report::left(name, <Case as comparison::Case>::FILLED, &left));
        }
        for fault in faults {
            let _ = writeln!(text, "{fault}");
        }
        text
    }
}

/// The first leaf that is not at or below the one of the other value.
fn not_below(first: &[u8], second: &[u8]) -> Option<usize> {
    first.iter().zip(second).position(|(v, w)| !at_or_below(&[*v], &[*w]))
}

/// The comparison of pairs of runs.
pub struct Ordered<P>(PhantomData<P>);

impl<P: Pairs> Comparison for Ordered<P> {
    type Mistake = RunMistake;
    /// How many pairs a job compares.
    type Job = u64;

    const COMMAND: &'static str = P::COMMAND;
    const CALLS: &'static [&'static str] = P::CALLS;
    const WHAT: &'static str = P::WHAT;
    const CASES: &'static str = P::CASES;
    const LEAST: u64 = P::LEAST;
    const ROOMS: &'static [usize] = &ROOMS;
    const MISTAKES: &'static [(&'static str, RunMistake)] = P::MISTAKES;

    fn new(_: &[&str]) -> Result<Self, String> {
        Ok(Ordered(PhantomData))
    }

    fn jobs(&self) -> Vec<u64> {
        vec![P::LEAST.div_ceil(SHARDS); SHARDS as usize]
    }

    fn more(&self, cases: u64) -> Option<u64> {
        Some(cases)
    }

    fn work(&self, pairs: &u64, to: &mut Comparer<Self>, random: &mut Random) -> Ended {
        while to.tally.compared < *pairs {
            to.go_on()?;
            let Some(pair) = P::make(&mut to.lender, to.mistake, random) else { continue };
            let faults = P::faults(&pair);
            if !faults.is_empty() {
                return Err(Halt::Difference(pair.report(&faults)));
            }
            to.tally.compared += 1;
            for (name, holds) in P::counts(&pair) {
                to.tally.add_if(name, holds);
            }
        }
        Ok(())
    }

    fn quotas(&self) -> Vec<Quota> {
        Quota::all(P::QUOTAS)
    }
}
