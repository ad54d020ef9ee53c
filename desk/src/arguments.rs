//! The words of a command: operands, flags and options with a value.

use crate::desk::{wrong, Failure};

/// What a command takes.
pub struct Usage {
    /// Its operands, as its usage line shows them; those in brackets may be
    /// left out.
    pub operands: &'static [&'static str],
    /// Its flags, and its options with what each takes; each with what it does.
    pub flags: &'static [(&'static str, &'static str)],
    pub options: &'static [(&'static str, &'static str, &'static str)],
}

#[derive(Default, Debug)]
pub struct Arguments {
    pub operands: Vec<String>,
    flags: Vec<String>,
    options: Vec<(String, String)>,
}

impl Arguments {
    pub fn flag(&self, name: &str) -> bool {
        self.flags.iter().any(|flag| flag == name)
    }

    pub fn option(&self, name: &str) -> Option<&str> {
        let mut given = self.options.iter().rev();
        given.find(|(option, _)| option == name).map(|(_, value)| value.as_str())
    }

    pub fn operand(&self, at: usize) -> &str {
        self.operands.get(at).map_or("", String::as_str)
    }
}

impl Usage {
    fn needed(&self) -> usize {
        self.operands.iter().filter(|operand| !operand.starts_with('[')).count()
    }

    /// The usage line of a command.
    pub fn line(&self, command: &str) -> String {
        let mut line = format!("sheet {command}");
        for operand in self.operands {
            line += &format!(" {operand}");
        }
        for (flag, _) in self.flags {
            line += &format!(" [{flag}]");
        }
        for (option, value, _) in self.options {
            line += &format!(" [{option} {value}]");
        }
        line
    }

    /// The arguments that some words are.
    pub fn parse(&self, command: &str, words: &[String]) -> Result<Arguments, Failure> {
        let mut arguments = Arguments::default();
        let mut words = words.iter();
        let mut only_operands = false;
        while let Some(word) = words.next() {
            let (name, value) = match word.split_once('=') {
                Some((name, value)) if word.starts_with("--") => (name, Some(value.to_string())),
                _ => (word.as_str(), None),
            };
            if only_operands || !word.starts_with('-') || word == "-" {
                arguments.operands.push(word.clone());
            } else if word == "--" {
                only_operands = true;
            } else if self.flags.iter().any(|(flag, _)| *flag == word) {
                arguments.flags.push(word.clone());
            } else if self.options.iter().any(|(option, _, _)| *option == name) {
                let Some(value) = value.or_else(|| words.next().cloned()) else {
                    return wrong(format!("{name} needs a value; {}", help(command)));
                };
                arguments.options.push((name.to_string(), value));
            } else {
                return wrong(format!("there is no option {word}; {}", help(command)));
            }
        }
        let given = arguments.operands.len();
        if given < self.needed() {
            let missing = self.operands[given];
            return wrong(format!("{missing} is missing; {}", help(command)));
        }
        if given > self.operands.len() {
            let more = &arguments.operands[self.operands.len()];
            return wrong(format!("{more} is one word too many; {}", help(command)));
        }
        Ok(arguments)
    }
}

fn help(command: &str) -> String {
    format!("see: sheet {command} --help")
}
