//! The program `sheetrun`: what it prints, and what becomes of `next.bin`.

use std::collections::BTreeMap;

use super::case::Case;
use super::cases::{few_cycles, good, Frame};
use super::faults::broken;
use super::mistakes::{run, RunMistake};
use crate::answers::{self, WRONG_INPUT, WRONG_LENGTH};
use crate::faults::categories;
use crate::frame::program::{Done, Folder, Program};
use crate::frame::tally::Quota;
use crate::fuzz::random_bytes;
use crate::generate::circuits::circuit;
use crate::generate::network::network;
use crate::generate::small::small;
use crate::layout::sheet;
use crate::listing::refusal_line;
use crate::printout::printout_of;
use crate::random::Random;
use crate::stimulus::LONGEST_STIMULUS;

/// How many sheets are run.
const ACCEPTED: u64 = 750;
const PER_CODE: u64 = 30;
const OF_NO_CYCLES: u64 = 10;
const NO_CYCLES: &str = "accepted sheets with no cycles";
/// The most bytes of an old next sheet, over those of any sheet.
const LONGEST_OLD: usize = 60_000;

pub const SHEET: &str = "sheet.bin";
pub const STIMULUS: &str = "stim.bin";
pub const NEXT: &str = "next.bin";

/// The program that runs a sheet.
pub struct Sheetrun;

/// A call that is accepted: few cycles, seldom as many as there can be.
pub fn accepted(random: &mut Random) -> Option<Case> {
    let draft = match random.below(10) {
        0 => network(random),
        1..=4 => small(random),
        _ => circuit(random),
    };
    let sheet = sheet(&draft, random);
    let frame = Frame::of(&sheet)?;
    let most = LONGEST_STIMULUS / frame.counts.len();
    let many = random.one_in(40) && most * draft.nodes.len() < 2_000_000;
    let cycles = if many { most } else { few_cycles(random) };
    Some(good("accepted", sheet, &frame, cycles, random))
}

/// In one folder of two, what an earlier run left.
pub fn old_next(random: &mut Random) -> Option<Vec<u8>> {
    let length = random.below(LONGEST_OLD);
    random.one_in(2).then(|| random_bytes(length, random))
}

/// The name of the count of sheets with a code.
pub fn of_code(code: u8) -> String {
    format!("sheets with code {code}")
}

impl Program for Sheetrun {
    type Mistake = RunMistake;

    const NAME: &'static str = "sheetrun";
    const FILES: &'static [&'static str] = &[SHEET, STIMULUS, NEXT];
    const MISTAKES: &'static [(&'static str, RunMistake)] = &[
        ("undefined-everywhere", RunMistake::UndefinedEverywhere),
        ("copy-sheet", RunMistake::CopySheet),
        ("invented-count", RunMistake::InventedCount),
        ("empty-refused", RunMistake::EmptyRefused),
    ];

    /// By how many there are of each code.
    fn folders(random: &mut Random) -> Vec<Folder> {
        let categories = categories();
        let mut cases = Vec::new();
        while (cases.len() as u64) < ACCEPTED {
            cases.extend(accepted(random));
        }
        for code in WRONG_LENGTH..=WRONG_INPUT {
            let least = cases.len() + PER_CODE as usize;
            while cases.len() < least {
                cases.extend(broken(&[code], &categories, random).map(|(case, _)| case));
            }
        }
        let folder = |Case { source, sheet, stimulus, .. }| {
            let mut files = BTreeMap::from([(SHEET, sheet), (STIMULUS, stimulus)]);
            files.extend(old_next(random).map(|old| (NEXT, old)));
            Folder { source, files }
        };
        cases.into_iter().map(folder).collect()
    }

    fn done(folder: &Folder, mistake: Option<RunMistake>) -> Done {
        let [sheet, stimulus] = [SHEET, STIMULUS].map(|name| folder.file(name).unwrap_or_default());
        match printout_of(|call| run(call, mistake), sheet, stimulus) {
            Ok((printed, next)) => {
                let no_cycles = stimulus.is_empty().then(|| NO_CYCLES.to_string());
                let counts = [of_code(answers::ACCEPTED)].into_iter().chain(no_cycles).collect();
                Done { printed, written: Some((NEXT, next)), counts }
            }
            Err(answer) => {
                let counts = vec![of_code(answer.code)];
                Done { printed: refusal_line(answer), written: None, counts }
            }
        }
    }

    fn quotas() -> Vec<Quota> {
        let quota = |code: u8| {
            // Some circuits have no place for a fault that shows.
            let least = if code == answers::ACCEPTED { ACCEPTED } else { PER_CODE * 2 / 3 };
            Quota::new(of_code(code), least)
        };
        let mut quotas: Vec<Quota> = (answers::ACCEPTED..=WRONG_INPUT).map(quota).collect();
        quotas.push(Quota::new(NO_CYCLES, OF_NO_CYCLES));
        quotas
    }
}
