//! Damaged texts, stimuli and sheets: the program ends with a status, and with a
//! sentence where that is not 0.

use std::fs;
use std::path::Path;

use desk::archive;
use desk::desk::{Desk, GOOD, REFUSED, WRONG};
use desk::program;
use second::random::Random;
use second::text::generate::damage::{any_byte, damage_anywhere};

/// The longest text that is taken: valgrind is slow.
const LONGEST: usize = 800;

/// Words that no message has.
const INTERNAL: [&str; 10] = [
    "panicked",
    "unwrap",
    "::",
    "Some(",
    "None",
    "Ok(",
    "Err(",
    "by code",
    "breaks a rule",
    "rule is broken",
];

/// A stimulus that is good for no text, but looks like one.
const STIMULUS: &str = "hi\n(hi, lo)\n? # nothing yet\n((hi, ?), lo) * 3\n1 2\n\nlo*2\n";

struct Trial<'a> {
    folder: &'a Path,
    random: Random,
    statuses: [u64; 3],
}

/// Damages so many files. They are written to a folder; the texts are those of
/// another one.
pub fn run(count: u64, folder: &str, texts: &str) -> bool {
    let mut bases: Vec<Vec<u8>> = Vec::new();
    let mut names: Vec<_> = fs::read_dir(texts).into_iter().flatten().flatten().collect();
    names.sort_by_key(|entry| entry.file_name());
    for entry in names {
        let text = fs::read(entry.path()).unwrap_or_default();
        let is_text = entry.path().extension().is_some_and(|ending| ending == "txt");
        if is_text && text.len() <= LONGEST {
            bases.push(text);
        }
    }
    if bases.is_empty() {
        println!("there are no texts in {texts}");
        return false;
    }
    let folder = Path::new(folder);
    let mut trial = Trial { folder, random: Random::new(2_000), statuses: [0; 3] };
    for number in 0..count {
        let text = bases[trial.random.below(bases.len())].clone();
        let good = match number % 3 {
            0 => trial.damaged_text(text),
            1 => trial.damaged_stimulus(text),
            _ => trial.damaged_sheet(&text),
        };
        if !good {
            return false;
        }
    }
    println!("compared {count} damaged files, statuses 0, 1 and 2: {:?}", trial.statuses);
    trial.statuses[0] > 0 && trial.statuses[1] > count / 4
}

impl Trial<'_> {
    fn damaged_text(&mut self, mut text: Vec<u8>) -> bool {
        for _ in 0..self.random.range(1, 3) {
            damage_anywhere(&mut text, &mut self.random);
        }
        if self.random.one_in(20) {
            text = (0..self.random.below(60)).map(|_| any_byte(&mut self.random)).collect();
        }
        self.files(&text, STIMULUS.as_bytes());
        let command = match self.random.below(4) {
            0 => vec!["records", "text"],
            1 => vec!["run", "text", "stimulus"],
            _ => vec!["check", "-W", "text"],
        };
        self.ends(&command)
    }

    fn damaged_stimulus(&mut self, text: Vec<u8>) -> bool {
        let mut lines: Vec<u8> = self.stimulus(&text);
        for _ in 0..self.random.below(3) {
            let at = self.random.below(lines.len() + 1);
            match self.random.below(3) {
                0 => lines.truncate(at),
                1 => lines.insert(at, any_byte(&mut self.random)),
                _ => {
                    let sign = b"#*?(),:0x\xff"[self.random.below(10)];
                    lines.insert(at, sign);
                }
            }
        }
        self.files(&text, &lines);
        let line = String::from_utf8_lossy(lines.split(|b| *b == b'\n').next().unwrap_or(b""));
        let line = line.replace('\0', "?");
        let command = match self.random.below(7) {
            0 => vec!["wave", "text", "stimulus"],
            1 => vec!["page", "text", "stimulus"],
            2 => vec!["show", "text", "--", &line],
            3 => vec!["run", "text", "stimulus", "--numbers"],
            4 => vec!["possible", "text", "--", &line],
            _ => vec!["run", "text", "stimulus"],
        };
        self.ends(&command)
    }

    /// The sheet of a text with a few bytes changed, or cut.
    fn damaged_sheet(&mut self, text: &[u8]) -> bool {
        let mut sheet = archive::translate(text).unwrap_or_default();
        for _ in 0..self.random.range(1, 2) {
            let at = self.random.below(sheet.len().max(1));
            match self.random.below(6) {
                0 => sheet.truncate(at),
                1 if at < sheet.len() => sheet[at] = self.random.draw() as u8,
                _ if at < sheet.len() => sheet[at] = self.random.below(70) as u8,
                _ => {}
            }
        }
        self.files(text, b"1\n? * 2\n(2, 1)\n");
        self.write("sheet.bin", &sheet);
        let command = match self.random.below(7) {
            0 => vec!["records", "sheet.bin"],
            1 => vec!["run", "sheet.bin", "stimulus"],
            2 => vec!["run", "text", "stimulus", "--from", "sheet.bin"],
            3 => vec!["draw", "sheet.bin"],
            4 => vec!["possible", "sheet.bin", "?"],
            _ => vec!["check", "-W", "sheet.bin"],
        };
        self.ends(&command)
    }

    /// Some lines, most of them values of the type of a text's input.
    fn stimulus(&mut self, text: &[u8]) -> Vec<u8> {
        let text = String::from_utf8_lossy(text);
        let pair = text.contains("INPUT two");
        let values: &[&str] = match pair {
            true => &["(hi, lo)", "(lo, lo) * 2", "?", "(?, hi) # late", "(hi,lo"],
            false => &["hi", "lo * 3", "? # late", "", "((hi, lo), hi)"],
        };
        let mut lines = String::new();
        for _ in 0..self.random.range(1, 4) {
            lines += values[self.random.below(values.len())];
            lines.push('\n');
        }
        lines.into_bytes()
    }

    fn files(&self, text: &[u8], stimulus: &[u8]) {
        self.write("text", text);
        self.write("stimulus", stimulus);
    }

    /// Writes a file anew: to write over an old one takes long on some disks.
    fn write(&self, name: &str, bytes: &[u8]) {
        let file = self.folder.join(name);
        let _ = fs::remove_file(&file);
        let written = fs::write(&file, bytes);
        written.unwrap_or_else(|error| panic!("{}: {error}", file.display()));
    }

    /// Runs a command whose files are in the folder, and looks at its end.
    fn ends(&mut self, command: &[&str]) -> bool {
        let words: Vec<String> = command
            .iter()
            .map(|word| match *word {
                "text" | "stimulus" | "sheet.bin" => self.folder.join(word).display().to_string(),
                word => word.to_string(),
            })
            .collect();
        let (mut out, mut err) = (Vec::new(), Vec::new());
        let mut desk = Desk { out: &mut out, err: &mut err, colours: false, terminal: false };
        let status = program::run(&mut desk, &words);
        let said = String::from_utf8_lossy(&err).into_owned();
        let printable = said.chars().all(|c| c == '\n' || !c.is_control());
        let internal = INTERNAL.iter().any(|word| said.lines().next().unwrap_or("").contains(word));
        let sentence = match status {
            GOOD => said.is_empty() || said.contains(": warning: "),
            REFUSED => said.contains(": error: "),
            WRONG => said.starts_with("sheet: "),
            _ => false,
        };
        if !sentence || !printable || internal {
            println!("{command:?} ended with {status} and said:\n{said}");
            let text = fs::read(self.folder.join("text")).unwrap_or_default();
            println!("of the text:\n{}", String::from_utf8_lossy(&text));
            return false;
        }
        self.statuses[usize::from(status)] += 1;
        true
    }
}
