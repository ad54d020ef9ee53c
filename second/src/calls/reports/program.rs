//! The program `sheetreport`: what it prints; it writes no file.

use std::collections::BTreeMap;

use super::cases::{any, longest, refused, shifting};
use super::changes::{before, Change, OutputRecord};
use super::mistakes::{found, ReportMistake, MISTAKES};
use super::report::{opened, recorded, report, text, wrong_text, Files};
use crate::answers::{Answer, ACCEPTED, NO_FILE, WRONG_INPUT, WRONG_LENGTH};
use crate::calls::runs::case::Case;
use crate::calls::runs::program::{of_code, old_next, NEXT, SHEET, STIMULUS};
use crate::faults::categories;
use crate::frame::program::{Done, Folder, Program};
use crate::frame::tally::Quota;
use crate::random::Random;
use crate::simulator::{ready, run, Call};
use crate::stimulus;

/// How many sheets are reported: any, those that are made for it, those of the
/// longest outputs; of each code, and of each file that is not there.
const ANY: usize = 350;
const SHIFTING: usize = 370;
const LONGEST: usize = 4;
const PER_CODE: u64 = 30;
const PER_FILE: u64 = 40;

/// What a report counts for, and how many there are to be.
const NO_CYCLES: &str = "reports of no cycles";
const ONE_CYCLE: &str = "reports of one cycle";
const TWO_CYCLES: &str = "reports of two cycles";
const MANY_CYCLES: &str = "reports of 1,000 cycles and more";
const LONGEST_RECORD: &str = "reports of 65,535 cycles of 64 leaves";
const ONE_LEAF: &str = "reports of one leaf";
const WIDEST: &str = "reports of 64 leaves";
const WIDER: &str = "reports of more leaves than the input's";
const NARROWER: &str = "reports of fewer leaves than the input's";
const FROM_UNDEFINED: &str = "reports with a change from 0";
const TO_UNDEFINED: &str = "reports with a change to 0";
const BETWEEN_VALUES: &str = "reports with a change from one value to another";
const AT_ONCE: &str = "reports with several changes in one cycle";
const BACK: &str = "reports with a change back to a leaf's first value";
const STILL: &str = "reports with a leaf that never changes beside one that does";
const NO_CHANGE: &str = "reports of several cycles without a change";
const ABOVE_16_BITS: &str = "reports with a total above 65,535";
const OLD_NEXT: &str = "reports beside an old next.bin";
const NEXT_REFUSED: &str = "refusals beside an old next.bin";
const BOTH_MISSING: &str = "12 at 1 where both files are not there";
const BEFORE_REFUSAL: &str = "12 at 2 where the sheet is refused";
const REPORTED: &[(&str, u64)] = &[
    (NO_CYCLES, 30),
    (ONE_CYCLE, 30),
    (TWO_CYCLES, 10),
    (MANY_CYCLES, 40),
    (LONGEST_RECORD, LONGEST as u64),
    (ONE_LEAF, 100),
    (WIDEST, 60),
    (WIDER, 100),
    (NARROWER, 50),
    (FROM_UNDEFINED, 150),
    (TO_UNDEFINED, 150),
    (BETWEEN_VALUES, 150),
    (AT_ONCE, 150),
    (BACK, 150),
    (STILL, 100),
    (NO_CHANGE, 50),
    (ABOVE_16_BITS, 4),
    (OLD_NEXT, 200),
    (NEXT_REFUSED, 100),
    (BOTH_MISSING, 10),
    (BEFORE_REFUSAL, 8),
];

/// How many reports there are to be with a number of one digit, two, and so on.
const DIGITS: [u64; 5] = [200, 50, 40, 20, 3];

/// The program that reports the changes of a run.
pub struct Sheetreport;

/// The name of the count of reports with a leaf's number of so many digits.
fn of_digits(digits: usize) -> String {
    format!("reports with a leaf's number of digits: {digits}")
}

/// The name of the count of folders without a file.
fn of_missing(place: u32) -> String {
    format!("12 at {place}")
}

/// A folder with the files of a case.
fn folder(case: Case, random: &mut Random) -> Folder {
    let Case { source, sheet, stimulus, .. } = case;
    let mut files = BTreeMap::from([(SHEET, sheet), (STIMULUS, stimulus)]);
    files.extend(old_next(random).map(|old| (NEXT, old)));
    Folder { source, files }
}

/// What the two files hold.
fn files(folder: &Folder) -> Files<'_> {
    [SHEET, STIMULUS].map(|name| folder.file(name))
}

/// What comes up in a record: the names for which something holds.
fn of_record(record: &OutputRecord, inputs: usize) -> Vec<String> {
    let OutputRecord { outputs, leaves } = record;
    let cycles = record.cycles();
    let found = report(record);
    let changed = |holds: &dyn Fn(Change, u8, u8) -> bool| {
        (1..cycles).flat_map(|cycle| (0..*leaves).map(move |leaf| Change { cycle, leaf })).any(
            |at| {
                let now = record.value(at.cycle, at.leaf);
                before(record, at).is_some_and(|before| before != now && holds(at, before, now))
            },
        )
    };
    let both: Vec<(&[u8], &[u8])> =
        outputs.chunks_exact(*leaves).zip(outputs.chunks_exact(*leaves).skip(1)).collect();
    let several = |(before, now): &(&[u8], &[u8])| {
        before.iter().zip(*now).filter(|(before, now)| before != now).count() > 1
    };
    let never = found.lines.iter().any(|line| line.changes == 0);
    let some = found.lines.iter().any(|line| line.changes > 0);
    let names = [
        (NO_CYCLES, cycles == 0),
        (ONE_CYCLE, cycles == 1),
        (TWO_CYCLES, cycles == 2),
        (MANY_CYCLES, cycles >= 1_000),
        (LONGEST_RECORD, cycles == 65_535 && *leaves == 64),
        (ONE_LEAF, *leaves == 1),
        (WIDEST, *leaves == 64),
        (WIDER, *leaves > inputs),
        (NARROWER, *leaves < inputs),
        (FROM_UNDEFINED, changed(&|_, before, _| before == 0)),
        (TO_UNDEFINED, changed(&|_, _, now| now == 0)),
        (BETWEEN_VALUES, changed(&|_, before, now| before != 0 && now != 0)),
        (AT_ONCE, both.iter().any(several)),
        (BACK, changed(&|at, _, now| now == record.value(0, at.leaf))),
        (STILL, never && some),
        (NO_CHANGE, cycles > 1 && !some),
        (ABOVE_16_BITS, found.total > 65_535),
    ];
    let digits =
        |digits: &usize| found.lines.iter().any(|line| line.changes.to_string().len() == *digits);
    let names = names.into_iter().filter(|(_, holds)| *holds).map(|(name, _)| name.to_string());
    names.chain((1..=DIGITS.len()).filter(digits).map(of_digits)).collect()
}

/// The names of what a folder counts for.
fn counts(folder: &Folder) -> Vec<String> {
    let old = folder.file(NEXT).is_some();
    let record = opened(files(folder)).and_then(|files| recorded(run, files));
    let (code, place, mut names) = match &record {
        Ok(record) => {
            let [sheet, stimulus] = files(folder).map(Option::unwrap_or_default);
            let ready = ready(sheet, stimulus);
            let inputs = ready.map_or(0, |ready| stimulus::leaves(&ready.circuit));
            (ACCEPTED, 0, of_record(record, inputs))
        }
        Err(Answer { code, place }) => (*code, *place, Vec::new()),
    };
    names.push(of_code(code));
    if code == NO_FILE {
        names.push(of_missing(place));
    }
    let [sheet, stimulus] = files(folder);
    let refused = sheet.is_some_and(|sheet| ready(sheet, &[]).is_err());
    let more = [
        (OLD_NEXT, old && code == ACCEPTED),
        (NEXT_REFUSED, old && code != ACCEPTED),
        (BOTH_MISSING, sheet.is_none() && stimulus.is_none()),
        (BEFORE_REFUSAL, stimulus.is_none() && refused),
    ];
    names.extend(more.into_iter().filter(|(_, holds)| *holds).map(|(name, _)| name.to_string()));
    names
}

/// The next sheet that a run leaves, if nothing is refused.
fn next_sheet(folder: &Folder) -> Option<Vec<u8>> {
    let [sheet, stimulus] = opened(files(folder)).ok()?;
    let output_length = ready(sheet, stimulus).ok()?.output_length;
    run(&Call { sheet, stimulus, output_length, next_length: sheet.len() }).next
}

impl Program for Sheetreport {
    type Mistake = ReportMistake;

    const NAME: &'static str = "sheetreport";
    const FILES: &'static [&'static str] = &[SHEET, STIMULUS, NEXT];
    const MISTAKES: &'static [(&'static str, ReportMistake)] = MISTAKES;

    fn folders(random: &mut Random) -> Vec<Folder> {
        let categories = categories();
        let mut folders = Vec::new();
        let kinds: [(usize, fn(&mut Random) -> Option<Case>); 3] =
            [(ANY, any), (SHIFTING, shifting), (LONGEST, longest)];
        for (least, make) in kinds {
            let least = folders.len() + least;
            while folders.len() < least {
                let Some(case) = make(random) else { continue };
                folders.push(folder(case, random));
            }
        }
        for code in WRONG_LENGTH..=WRONG_INPUT {
            for _ in 0..PER_CODE {
                folders.push(folder(refused(code, &categories, random), random));
            }
        }
        // Without a file, or both, of which the sheet is told.
        for missing in [SHEET, STIMULUS] {
            let mut made = 0;
            while made < PER_FILE {
                let code = random.range(usize::from(WRONG_LENGTH), usize::from(WRONG_INPUT));
                let case = match made % 2 {
                    0 => any(random),
                    _ => Some(refused(code as u8, &categories, random)),
                };
                let Some(case) = case else { continue };
                let mut folder = folder(case, random);
                folder.files.remove(missing);
                if missing == SHEET && random.one_in(2) {
                    folder.files.remove(STIMULUS);
                }
                folder.source = format!("{}, without {missing}", folder.source);
                folders.push(folder);
                made += 1;
            }
        }
        folders
    }

    fn done(folder: &Folder, mistake: Option<ReportMistake>) -> Done {
        let printed = text(&found(files(folder), mistake));
        let written = match mistake {
            Some(ReportMistake::NextWritten) => next_sheet(folder).map(|next| (NEXT, next)),
            _ => None,
        };
        let counts = if mistake.is_none() { counts(folder) } else { Vec::new() };
        Done { printed, written, counts }
    }

    fn wrong(printed: &str) -> Option<String> {
        wrong_text(printed)
    }

    fn quotas() -> Vec<Quota> {
        let reports = (ANY + SHIFTING + LONGEST) as u64;
        let mut quotas = vec![Quota::new(of_code(ACCEPTED), reports)];
        quotas.extend((WRONG_LENGTH..=WRONG_INPUT).map(|code| Quota::new(of_code(code), PER_CODE)));
        quotas.extend((1..=2).map(|place| Quota::new(of_missing(place), PER_FILE)));
        quotas.extend(Quota::all(REPORTED));
        let of_digits = |(digits, least): (usize, &u64)| Quota::new(of_digits(digits + 1), *least);
        quotas.extend(DIGITS.iter().enumerate().map(of_digits));
        quotas
    }
}
