//! The program `sheetreplay`: what it prints; it writes no file.

use std::collections::BTreeMap;

use super::case::Case;
use super::cases::Ran;
use super::faults::broken;
use super::line::{call_on, line, Files};
use super::mistakes::{replay, ReplayMistake};
use super::replay::{replay as right, Finding, Outcome, Place, WRONG_RECORDED_LENGTH};
use crate::answers::{Answer, ACCEPTED, NO_FILE, WRONG_INPUT, WRONG_LENGTH};
use crate::calls::runs::cases::Frame;
use crate::calls::runs::program::{accepted, of_code, old_next, NEXT, SHEET, STIMULUS};
use crate::faults::categories;
use crate::faults::category::Category;
use crate::frame::program::{Done, Folder, Program};
use crate::frame::tally::Quota;
use crate::random::Random;
use crate::simulator::ready;

const RECORD: &str = "record.bin";

/// How many sheets are replayed on: that keep every rule, of each code, and
/// of each file that is not there.
const GOOD: usize = 600;
const PER_CODE: u64 = 30;
const PER_FILE: u64 = 40;

const AGREEING: &str = "agreeing records";
const DIFFERING: &str = "differing records";
const LATER: &str = "records that differ first in a later cycle and a later leaf";
const NO_CYCLES: &str = "agreeing records of no cycles";
const ONE_CYCLE: &str = "agreeing records of one cycle";
const ONE_DIFFERING: &str = "differing records of one cycle";
const BEFORE_REFUSAL: &str = "12 at 3 where the other files are refused";
const SEVERAL_MISSING: &str = "several files that are not there";

/// The program that replays a record.
pub struct Sheetreplay;

/// A mistake in the program, or one in the replay.
#[derive(Clone, Copy)]
pub enum ProgramMistake {
    /// The record is tried before the stimulus, and has its place.
    RecordBeforeStimulus,
    /// The last file that can't be opened is named.
    LastMissing,
    /// A missing record is refused after what is wrong with the other two files.
    RefusalBeforeMissing,
    /// A missing record is taken for an empty one.
    MissingIsEmpty,
    /// The leaf is printed as the cycle, and the cycle as the leaf.
    Swapped,
    /// A record that differs at leaf 0 is printed as one that agrees.
    LeafZeroAgrees,
    /// The number of the last cycle is printed in place of how many there are.
    LastForCount,
    /// The next sheet of an agreeing record is written.
    NextWritten,
    Replay(ReplayMistake),
}

/// A folder with the files of a case.
fn folder(case: Case, random: &mut Random) -> Folder {
    let Case { source, sheet, stimulus, recorded, .. } = case;
    let mut files = BTreeMap::from([(SHEET, sheet), (STIMULUS, stimulus), (RECORD, recorded)]);
    files.extend(old_next(random).map(|old| (NEXT, old)));
    Folder { source, files }
}

/// A replay that keeps every rule: in two of sixteen of at most one cycle, in
/// one of none.
fn good(random: &mut Random) -> Option<Case> {
    let mut run = accepted(random)?;
    let most = match random.below(16) {
        0 => 0,
        1 | 2 => 1,
        _ => usize::MAX,
    };
    let leaves = Frame::of(&run.sheet)?.counts.len();
    run.stimulus.truncate(leaves.saturating_mul(most));
    run.output_length = ready(&run.sheet, &run.stimulus).ok()?.output_length;
    Ran::of(&run).map(|ran| ran.any("accepted", random))
}

/// A replay that is refused by a code.
fn of_wrong(code: u8, categories: &[Category], random: &mut Random) -> Case {
    loop {
        let Some((case, _)) = broken(&[code], categories, random) else { continue };
        let case = Case { next_length: case.sheet.len(), ..case };
        if right(&case.call()).answer.code == code {
            return case;
        }
    }
}

/// The codes that the program gives of files that it can open.
fn codes() -> impl Iterator<Item = u8> {
    (WRONG_LENGTH..=WRONG_INPUT).chain([WRONG_RECORDED_LENGTH])
}

/// What the three files hold.
fn files(folder: &Folder) -> Files<'_> {
    [SHEET, STIMULUS, RECORD].map(|name| folder.file(name))
}

/// What the program finds, or what a mistake makes of it.
fn found(folder: &Folder, mistake: Option<ProgramMistake>) -> Outcome {
    let [sheet, stimulus, recorded] = files(folder);
    let missing = |place: u32| Outcome::refused(Answer { code: NO_FILE, place });
    let of_replay = match mistake {
        Some(ProgramMistake::Replay(mistake)) => Some(mistake),
        _ => None,
    };
    let replayed = |files: Files| match call_on(files) {
        Ok(call) => replay(&call, of_replay),
        Err(answer) => Outcome::refused(answer),
    };
    let outcome = replayed([sheet, stimulus, recorded]);
    let without_record = recorded.is_none() && outcome.answer.code == NO_FILE;
    match (mistake, outcome.found) {
        (Some(ProgramMistake::RecordBeforeStimulus), None) if outcome.answer.code == NO_FILE => {
            replayed([sheet, recorded, stimulus])
        }
        (Some(ProgramMistake::LastMissing), None) if outcome.answer.code == NO_FILE => {
            let last = [sheet, stimulus, recorded].iter().rposition(Option::is_none).unwrap_or(0);
            missing(last as u32 + 1)
        }
        (Some(ProgramMistake::RefusalBeforeMissing), None) if without_record => {
            let others = replayed([sheet, stimulus, Some(&[])]);
            if codes().any(|code| code == others.answer.code && code != WRONG_RECORDED_LENGTH) {
                others
            } else {
                outcome
            }
        }
        (Some(ProgramMistake::MissingIsEmpty), None) if without_record => {
            replayed([sheet, stimulus, Some(&[])])
        }
        (Some(ProgramMistake::Swapped), Some(Finding::Differs(Place { cycle, leaf }))) => {
            let found = Some(Finding::Differs(Place { cycle: leaf, leaf: cycle }));
            Outcome { found, ..outcome }
        }
        (Some(ProgramMistake::LeafZeroAgrees), Some(Finding::Differs(at))) if at.leaf == 0 => {
            Outcome { found: Some(Finding::Agrees(at.cycle)), ..outcome }
        }
        (Some(ProgramMistake::LastForCount), Some(Finding::Agrees(cycles))) => {
            Outcome { found: Some(Finding::Agrees(cycles.saturating_sub(1))), ..outcome }
        }
        _ => outcome,
    }
}

/// The names of what a folder counts for.
fn counts(folder: &Folder, outcome: &Outcome) -> Vec<String> {
    let [sheet, stimulus, recorded] = files(folder);
    let names = match outcome.found {
        Some(Finding::Agrees(0)) => vec![AGREEING, NO_CYCLES],
        Some(Finding::Agrees(1)) => vec![AGREEING, ONE_CYCLE],
        Some(Finding::Agrees(_)) => vec![AGREEING],
        Some(Finding::Differs(place)) => {
            let ready = ready(sheet.unwrap_or_default(), stimulus.unwrap_or_default());
            let one = ready.is_ok_and(|ready| ready.cycles == 1);
            let later = place.cycle > 0 && place.leaf > 0;
            let names = [(DIFFERING, true), (ONE_DIFFERING, one), (LATER, later)];
            names.into_iter().filter(|(_, holds)| *holds).map(|(name, _)| name).collect()
        }
        None => {
            let missing = [sheet, stimulus, recorded].iter().filter(|file| file.is_none()).count();
            let refused = match (sheet, stimulus, recorded) {
                (Some(sheet), Some(stimulus), None) => ready(sheet, stimulus).is_err(),
                _ => false,
            };
            let names = [(SEVERAL_MISSING, missing > 1), (BEFORE_REFUSAL, refused)];
            names.into_iter().filter(|(_, holds)| *holds).map(|(name, _)| name).collect()
        }
    };
    let Answer { code, place } = outcome.answer;
    let of_file = (code == NO_FILE).then(|| of_missing(place));
    let names = names.into_iter().map(str::to_string);
    [of_code(code)].into_iter().chain(of_file).chain(names).collect()
}

/// The name of the count of folders without a file.
fn of_missing(place: u32) -> String {
    format!("12 at {place}")
}

impl Program for Sheetreplay {
    type Mistake = ProgramMistake;

    const NAME: &'static str = "sheetreplay";
    const FILES: &'static [&'static str] = &[SHEET, STIMULUS, RECORD, NEXT];
    const MISTAKES: &'static [(&'static str, ProgramMistake)] = &[
        ("record-before-stimulus", ProgramMistake::RecordBeforeStimulus),
        ("last-missing", ProgramMistake::LastMissing),
        ("refusal-before-missing", ProgramMistake::RefusalBeforeMissing),
        ("missing-is-empty", ProgramMistake::MissingIsEmpty),
        ("cycle-and-leaf-swapped", ProgramMistake::Swapped),
        ("leaf-zero-agrees", ProgramMistake::LeafZeroAgrees),
        ("last-for-count", ProgramMistake::LastForCount),
        ("next-written", ProgramMistake::NextWritten),
        ("last-difference", ProgramMistake::Replay(ReplayMistake::LastDifference)),
        ("highest-leaf", ProgramMistake::Replay(ReplayMistake::HighestLeaf)),
        ("leaf-through-record", ProgramMistake::Replay(ReplayMistake::LeafThroughRecord)),
        ("cycle-from-one", ProgramMistake::Replay(ReplayMistake::CycleFromOne)),
        ("record-by-order", ProgramMistake::Replay(ReplayMistake::RecordByOrder)),
        ("ten-for-seventeen", ProgramMistake::Replay(ReplayMistake::TenForSeventeen)),
        (
            "place-of-seventeen-given",
            ProgramMistake::Replay(ReplayMistake::PlaceOfSeventeenGiven),
        ),
        ("empty-refused", ProgramMistake::Replay(ReplayMistake::EmptyRefused)),
    ];

    fn folders(random: &mut Random) -> Vec<Folder> {
        let categories = categories();
        let mut folders = Vec::new();
        while folders.len() < GOOD {
            let Some(case) = good(random) else { continue };
            folders.push(folder(case, random));
        }
        for code in codes() {
            for _ in 0..PER_CODE {
                let case = of_wrong(code, &categories, random);
                folders.push(folder(case, random));
            }
        }
        // Without a file, or several, of which the first is named.
        for (place, missing) in [SHEET, STIMULUS, RECORD].into_iter().enumerate() {
            let mut made = 0;
            while made < PER_FILE {
                let Some(code) = random.pick(&codes().collect::<Vec<u8>>()) else { continue };
                let case = match made % 2 {
                    0 => good(random),
                    _ => Some(of_wrong(code, &categories, random)),
                };
                let Some(case) = case else { continue };
                let mut folder = folder(case, random);
                folder.files.remove(missing);
                for later in &[SHEET, STIMULUS, RECORD][place + 1..] {
                    if random.one_in(2) {
                        folder.files.remove(later);
                    }
                }
                folder.source = format!("{}, without {missing}", folder.source);
                folders.push(folder);
                made += 1;
            }
        }
        // In any order, so that a mistake shows after a few.
        for k in (1..folders.len()).rev() {
            folders.swap(k, random.below(k + 1));
        }
        folders
    }

    fn done(folder: &Folder, mistake: Option<ProgramMistake>) -> Done {
        let outcome = found(folder, mistake);
        let written = match (mistake, &outcome.next) {
            (Some(ProgramMistake::NextWritten), Some(next)) => Some((NEXT, next.clone())),
            _ => None,
        };
        Done { printed: line(&outcome), written, counts: counts(folder, &outcome) }
    }

    fn quotas() -> Vec<Quota> {
        let named = [
            (AGREEING, 150),
            (DIFFERING, 150),
            (LATER, 20),
            (NO_CYCLES, 30),
            (ONE_CYCLE, 20),
            (ONE_DIFFERING, 20),
            (BEFORE_REFUSAL, 10),
            (SEVERAL_MISSING, 30),
        ];
        let mut quotas = vec![Quota::new(of_code(ACCEPTED), GOOD as u64)];
        quotas.extend(codes().map(|code| Quota::new(of_code(code), PER_CODE)));
        quotas.extend((1..=3).map(|place| Quota::new(of_missing(place), PER_FILE)));
        quotas.extend(Quota::all(&named));
        quotas
    }
}
