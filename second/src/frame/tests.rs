//! The frame, on comparisons of numbers and of a script that call no archive.

use std::collections::BTreeMap;

use super::comparison::{Comparer, Comparison, Ended, Halt};
use super::plan::{self, ALIKE, DIFFERENCE, NOT_SEEN, UNMET};
use super::program::{Done, Folder, Program, Programs};
use super::tally::{Quota, Tally};
use crate::random::Random;

/// What is wrong with the numbers.
#[derive(Clone, Copy)]
enum Wrong {
    /// Each number is one more from the tenth on.
    More,
    Nothing,
}

/// Numbers that are doubled, by a sum and by a product; of those below 100,
/// the quota asks for `EVEN` even ones.
struct Doubled<const EVEN: u64>;

impl<const EVEN: u64> Comparison for Doubled<EVEN> {
    type Mistake = Wrong;
    type Job = u64;

    const COMMAND: &'static str = "doubled";
    const CALLS: &'static [&'static str] = &[];
    const WHAT: &'static str = "numbers";
    const CASES: &'static str = "--numbers";
    const LEAST: u64 = 100;
    const ROOMS: &'static [usize] = &[];
    const MISTAKES: &'static [(&'static str, Wrong)] = &[("more", Wrong::More)];

    fn new(_: &[&str]) -> Result<Self, String> {
        Ok(Doubled)
    }

    fn jobs(&self) -> Vec<u64> {
        vec![50, 50]
    }

    fn more(&self, cases: u64) -> Option<u64> {
        Some(cases)
    }

    fn work(&self, numbers: &u64, to: &mut Comparer<Self>, _: &mut Random) -> Ended {
        for number in 0..*numbers {
            to.go_on()?;
            let more = matches!(to.mistake, Some(Wrong::More)) && number >= 10;
            if number + number + u64::from(more) != 2 * number {
                return Err(Halt::Difference(format!("difference found, in: {number}\n")));
            }
            to.tally.compared += 1;
            to.tally.add_if("even", number % 2 == 0);
        }
        Ok(())
    }

    fn quotas(&self) -> Vec<Quota> {
        vec![Quota::new("even", EVEN)]
    }
}

/// A comparison with a mistake that changes nothing.
struct Unseen;

impl Comparison for Unseen {
    type Mistake = Wrong;
    type Job = ();

    const COMMAND: &'static str = "unseen";
    const PARAMETERS: &'static [&'static str] = &["WORD"];
    const CALLS: &'static [&'static str] = &[];
    const WHAT: &'static str = "numbers";
    const CASES: &'static str = "--numbers";
    const LEAST: u64 = 1;
    const ROOMS: &'static [usize] = &[];
    const MISTAKES: &'static [(&'static str, Wrong)] = &[("nothing", Wrong::Nothing)];

    fn new(parameters: &[&str]) -> Result<Self, String> {
        if parameters == ["right"] {
            Ok(Unseen)
        } else {
            Err("another word".to_string())
        }
    }

    fn jobs(&self) -> Vec<()> {
        vec![()]
    }

    fn work(&self, _: &(), to: &mut Comparer<Self>, _: &mut Random) -> Ended {
        to.tally.compared += 1;
        Ok(())
    }

    fn quotas(&self) -> Vec<Quota> {
        Vec::new()
    }
}

#[test]
fn statuses_of_comparisons() {
    assert_eq!(plan::run::<Doubled<50>>(&[]), Some(ALIKE));
    assert_eq!(plan::run::<Doubled<51>>(&[]), Some(UNMET));
    assert_eq!(plan::run::<Doubled<50>>(&["--mistake", "more"]), Some(DIFFERENCE));
    assert_eq!(plan::run::<Unseen>(&["right"]), Some(ALIKE));
    assert_eq!(plan::run::<Unseen>(&["right", "--mistake", "nothing"]), Some(NOT_SEEN));
    assert_eq!(plan::run::<Unseen>(&["wrong"]), Some(NOT_SEEN));
    // There is no second number.
    assert_eq!(plan::run::<Unseen>(&["right", "--numbers", "2"]), Some(UNMET));
}

#[test]
fn quotas_hold_for_enough_cases_alone() {
    assert_eq!(plan::run::<Doubled<51>>(&["--numbers", "99"]), Some(ALIKE));
    assert_eq!(plan::run::<Doubled<51>>(&["--numbers", "100"]), Some(UNMET));
    // Eight shards of further numbers, of which one in two is even.
    assert_eq!(plan::run::<Doubled<51>>(&["--numbers", "116"]), Some(ALIKE));
    // A job that stops before the tenth number does not see the mistake.
    let few = ["--numbers", "20", "--mistake", "more"];
    assert_eq!(plan::run::<Doubled<50>>(&few), Some(NOT_SEEN));
    let one_more = ["--numbers", "21", "--mistake", "more"];
    assert_eq!(plan::run::<Doubled<50>>(&one_more), Some(DIFFERENCE));
}

#[test]
fn words_that_are_no_options() {
    for words in [
        &["--numbers"][..],
        &["--numbers", "0"],
        &["--numbers", "many"],
        &["--mistake", "less"],
        &["--pairs", "3"],
        &["word"],
    ] {
        assert_eq!(plan::run::<Doubled<50>>(words), None, "{words:?}");
    }
    assert_eq!(plan::run::<Unseen>(&[]), None);
}

#[test]
fn every_mistake_is_to_be_seen() {
    assert_eq!(plan::mistakes::<Doubled<50>>(&[]), Some(ALIKE));
    assert_eq!(plan::mistakes::<Doubled<50>>(&["--numbers", "20"]), Some(DIFFERENCE));
    assert_eq!(plan::mistakes::<Unseen>(&["right"]), Some(DIFFERENCE));
    assert_eq!(plan::mistakes::<Doubled<50>>(&["--mistake", "more"]), None);
}

#[test]
fn quotas_ask_for_a_number_and_for_hits() {
    let mut tally = Tally::default();
    (0..10).for_each(|k| tally.aim("aimed", k < 8));
    let unmet = |least: u64, percent: u64| {
        Quota::of_hundred("aimed", least, percent).judge(&tally).1.is_some()
    };
    assert!(!unmet(8, 0) && unmet(9, 0));
    assert!(!unmet(8, 80) && unmet(8, 81));
    assert_eq!(Quota::new("aimed", 9).judge(&tally).0, "quota aimed: 8 of 9");
    assert!(Quota::new("never counted", 1).judge(&tally).1.is_some());
    let mut twice = tally.clone();
    twice.merge(&tally);
    assert_eq!((twice.got("aimed"), twice.got("never counted")), (16, 0));
}

/// What is wrong with a program that prints its sheet.
#[derive(Clone, Copy)]
enum Misprint {
    /// It prints something else.
    Other,
    /// It writes a file.
    Writes,
}

/// A program that prints its sheet and writes nothing.
struct Prints;

impl Program for Prints {
    type Mistake = Misprint;

    const NAME: &'static str = "prints";
    const FILES: &'static [&'static str] = &["sheet.bin", "next.bin"];
    const MISTAKES: &'static [(&'static str, Misprint)] =
        &[("other", Misprint::Other), ("writes", Misprint::Writes)];

    fn folders(random: &mut Random) -> Vec<Folder> {
        let folder = |k: usize| {
            let mut files = BTreeMap::from([("sheet.bin", k.to_string().into_bytes())]);
            files.extend(random.one_in(2).then(|| ("next.bin", b"old".to_vec())));
            Folder { source: k.to_string(), files }
        };
        (0..1000).map(folder).collect()
    }

    fn done(folder: &Folder, mistake: Option<Misprint>) -> Done {
        let sheet = folder.file("sheet.bin").unwrap_or_default();
        let mut printed = String::from_utf8_lossy(sheet).into_owned();
        if matches!(mistake, Some(Misprint::Other)) {
            printed.push(' ');
        }
        let writes = matches!(mistake, Some(Misprint::Writes));
        let written = writes.then(|| ("next.bin", b"new".to_vec()));
        Done { printed, written, counts: Vec::new() }
    }

    fn quotas() -> Vec<Quota> {
        Vec::new()
    }
}

/// A program is to print what is expected and to leave the files that are, and
/// no others.
#[cfg(unix)]
#[test]
fn programs_in_a_folder() {
    use std::os::unix::fs::PermissionsExt;
    let work = std::env::temp_dir().join(format!("second-{}", std::process::id()));
    let compared = |name: &str, script: &str, mistake: &[&str]| {
        let (program, folder) = (work.join(name), work.join("in"));
        let written = std::fs::create_dir_all(&work)
            .and_then(|()| std::fs::write(&program, format!("#!/bin/sh\n{script}\n")))
            .and_then(|()| {
                std::fs::set_permissions(&program, std::fs::Permissions::from_mode(0o755))
            });
        assert!(written.is_ok());
        let [program, folder] = [program, folder].map(|path| path.display().to_string());
        let words = [&[program.as_str(), folder.as_str(), "--sheets", "20"], mistake].concat();
        let status = plan::run::<Programs<Prints>>(&words);
        let removed = std::fs::remove_dir_all(&work);
        assert!(removed.is_ok());
        status
    };
    let right = "cat sheet.bin";
    assert_eq!(compared("right", right, &[]), Some(ALIKE));
    assert_eq!(compared("other", right, &["--mistake", "other"]), Some(DIFFERENCE));
    assert_eq!(compared("writes", right, &["--mistake", "writes"]), Some(DIFFERENCE));
    let wrong = [
        "printf 0",
        "cat sheet.bin; : >stray",
        "cat sheet.bin; echo >next.bin",
        "cat sheet.bin; rm sheet.bin",
        "cat sheet.bin; echo >&2",
        "cat sheet.bin; exit 1",
    ];
    for (k, script) in wrong.into_iter().enumerate() {
        assert_eq!(compared(&format!("wrong-{k}"), script, &[]), Some(DIFFERENCE), "{script}");
    }
    // There is no such program.
    assert_eq!(plan::run::<Programs<Prints>>(&["no-program", "no-folder"]), Some(NOT_SEEN));
}
