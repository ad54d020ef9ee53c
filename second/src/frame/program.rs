//! Comparisons of programs, each of which is run in a folder: what it prints,
//! and what becomes of the files there.

use std::collections::BTreeMap;
use std::ffi::OsString;
use std::io;
use std::marker::PhantomData;
use std::path::{Path, PathBuf};
use std::process::{Command, Stdio};

use super::comparison::{Comparer, Comparison, Ended, Halt};
use super::report::{hex, FOUND};
use super::tally::Quota;
use crate::random::Random;

/// The files of a folder.
pub type Files = BTreeMap<OsString, Vec<u8>>;

/// A folder for a program to be run in.
pub struct Folder {
    pub source: String,
    /// The files that are there, by name.
    pub files: BTreeMap<&'static str, Vec<u8>>,
}

impl Folder {
    /// What a file holds; none if it is not there.
    pub fn file(&self, name: &str) -> Option<&[u8]> {
        self.files.get(name).map(Vec::as_slice)
    }
}

/// What a program is to do in a folder.
pub struct Done {
    pub printed: String,
    /// The file that it writes, if it writes one: its name, and what it holds.
    pub written: Option<(&'static str, Vec<u8>)>,
    /// The names of what the folder counts for.
    pub counts: Vec<String>,
}

/// A program: in which folders it is run, and what it does there.
pub trait Program: Sync {
    type Mistake: Copy + Sync + 'static;

    const NAME: &'static str;
    /// Every file that it reads or writes, or that an earlier run may have left.
    const FILES: &'static [&'static str];
    const MISTAKES: &'static [(&'static str, Self::Mistake)];

    fn folders(random: &mut Random) -> Vec<Folder>;

    /// What it does by the second implementation, or with a mistake.
    fn done(folder: &Folder, mistake: Option<Self::Mistake>) -> Done;

    /// What is wrong with what the program prints, whatever the second
    /// implementation gives.
    fn wrong(_printed: &str) -> Option<String> {
        None
    }

    fn quotas() -> Vec<Quota>;
}

/// The comparison of a program: where it is, and the folder that it is run in.
pub struct Programs<P> {
    path: PathBuf,
    folder: PathBuf,
    of: PhantomData<P>,
}

impl<P: Program> Programs<P> {
    /// Puts the files of a folder there, and removes the others.
    fn put(&self, folder: &Folder) -> io::Result<()> {
        for name in P::FILES {
            let path = self.folder.join(name);
            match folder.file(name) {
                Some(bytes) => std::fs::write(path, bytes)?,
                None if path.exists() => std::fs::remove_file(path)?,
                None => {}
            }
        }
        Ok(())
    }

    /// All files that are there.
    fn held(&self) -> io::Result<Files> {
        let entry = |entry: io::Result<std::fs::DirEntry>| {
            let entry = entry?;
            Ok((entry.file_name(), std::fs::read(entry.path())?))
        };
        std::fs::read_dir(&self.folder)?.map(entry).collect()
    }

    /// What the program prints. It writes nothing to standard error, and its
    /// status is 0.
    fn run(&self) -> io::Result<Vec<u8>> {
        let mut command = Command::new(&self.path);
        let output = command.current_dir(&self.folder).stdin(Stdio::null()).output()?;
        match output.status.success() && output.stderr.is_empty() {
            true => Ok(output.stdout),
            false => Err(io::Error::other(format!("{output:?}"))),
        }
    }

    /// Runs the program in a folder; what differs from what it is to do.
    fn compare(&self, folder: &Folder, done: &Done) -> io::Result<Option<String>> {
        self.put(folder)?;
        let mut files = self.held()?;
        files.extend(done.written.clone().map(|(name, bytes)| (name.into(), bytes)));
        let (program, printed) = (self.run()?, &done.printed);
        let shown = String::from_utf8_lossy(&program);
        let wrong = P::wrong(&shown);
        if program != printed.as_bytes() || wrong.is_some() {
            let prints = format!("second prints:\n{printed}the program prints:\n{shown}");
            return Ok(Some(prints + &wrong.unwrap_or_default()));
        }
        let left = self.held()?;
        let other =
            files.keys().chain(left.keys()).find(|name| files.get(*name) != left.get(*name));
        Ok(other.map(|name| format!("{} is not as expected", name.to_string_lossy())))
    }
}

fn difference(folder: &Folder, what: &str) -> Halt {
    let mut text = format!("{FOUND}, in: {}\n", folder.source);
    for (name, bytes) in &folder.files {
        text.push_str(&format!("{name}, {} bytes: {}\n", bytes.len(), hex(bytes)));
    }
    text.push_str(&format!("{what}\n"));
    Halt::Difference(text)
}

impl<P: Program> Comparison for Programs<P> {
    type Mistake = P::Mistake;
    /// All of it: the program runs in one folder.
    type Job = ();

    const COMMAND: &'static str = P::NAME;
    const PARAMETERS: &'static [&'static str] = &["PROGRAM", "FOLDER"];
    const CALLS: &'static [&'static str] = &[];
    const WHAT: &'static str = "sheets";
    const CASES: &'static str = "--sheets";
    const LEAST: u64 = 1_000;
    const ROOMS: &'static [usize] = &[];
    const MISTAKES: &'static [(&'static str, P::Mistake)] = P::MISTAKES;

    fn new(parameters: &[&str]) -> Result<Self, String> {
        let [program, folder] = parameters else { unreachable!("two parameters") };
        let path =
            Path::new(program).canonicalize().map_err(|_| format!("no program {program}"))?;
        std::fs::create_dir_all(folder).map_err(|error| format!("{folder}: {error}"))?;
        Ok(Programs { path, folder: folder.into(), of: PhantomData })
    }

    fn jobs(&self) -> Vec<()> {
        vec![()]
    }

    fn work(&self, _: &(), to: &mut Comparer<Self>, _: &mut Random) -> Ended {
        for folder in P::folders(&mut Random::new(to.seed)) {
            to.go_on()?;
            let done = P::done(&folder, to.mistake);
            let compared = self.compare(&folder, &done);
            if let Some(what) = compared.unwrap_or_else(|error| Some(error.to_string())) {
                return Err(difference(&folder, &what));
            }
            to.tally.compared += 1;
            done.counts.iter().for_each(|name| to.tally.add(name, 1));
        }
        Ok(())
    }

    fn quotas(&self) -> Vec<Quota> {
        P::quotas()
    }
}
