//! The program: its commands, its help, and how it ends.

use std::io::ErrorKind;

use crate::archive;
use crate::arguments::{Arguments, Usage};
use crate::command::Command;
use crate::commands::{self, COMMANDS};
use crate::completion;
use crate::desk::{wrong, Desk, Done, Failure, GOOD, REFUSED, WRONG};
use crate::near::nearest;

/// The one command that has to know all others.
const COMPLETION: Command = Command {
    name: "completion",
    summary: "Prints the completion for a shell: bash.",
    help: "To have it in this shell: source <(sheet completion bash)",
    usage: Usage { operands: &["SHELL"], flags: &[], options: &[] },
    run: complete,
};

/// Every command.
fn all() -> Vec<&'static Command> {
    COMMANDS.iter().chain([&COMPLETION]).collect()
}

/// Does what some words ask for, and gives the status.
pub fn run(desk: &mut Desk, words: &[String]) -> u8 {
    let ended = dispatch(desk, words);
    let flushed = desk.out.flush();
    match ended.and_then(|status| flushed.map(|()| status).map_err(Failure::Output)) {
        Ok(status) => status,
        Err(Failure::Refused) => REFUSED,
        // Who reads the output has read enough.
        Err(Failure::Output(error)) if error.kind() == ErrorKind::BrokenPipe => GOOD,
        Err(Failure::Output(error)) => {
            let _ = writeln!(desk.err, "sheet: nothing can be written: {error}");
            WRONG
        }
        Err(Failure::Wrong(sentence)) => {
            let _ = writeln!(desk.err, "sheet: {sentence}");
            WRONG
        }
    }
}

fn dispatch(desk: &mut Desk, words: &[String]) -> Done {
    let Some(first) = words.first() else {
        desk.err.write_all(overview().as_bytes())?;
        return Ok(WRONG);
    };
    match first.as_str() {
        "help" | "--help" | "-h" => help(desk, words.get(1).map(String::as_str)),
        "--version" | "-V" => version(desk),
        name => {
            let command = find(name)?;
            let rest = &words[1..];
            let before_end = rest.iter().take_while(|word| *word != "--");
            if before_end.into_iter().any(|word| word == "--help" || word == "-h") {
                return help(desk, Some(name));
            }
            let arguments = command.usage.parse(name, rest)?;
            (command.run)(desk, &arguments)
        }
    }
}

/// The command of a name.
fn find(name: &str) -> Result<&'static Command, Failure> {
    if let Some(command) = all().into_iter().find(|command| command.name == name) {
        return Ok(command);
    }
    if let Some((_, call)) = commands::absent().find(|(absent, _)| *absent == name) {
        let archive = archive::ARCHIVE;
        return wrong(format!("{name} needs {call}, which {archive} does not have"));
    }
    let near = nearest(name, all().iter().map(|command| command.name).chain(["help"]));
    let meant = near.map(|near| format!(", did you mean {near}?")).unwrap_or_default();
    wrong(format!("there is no command {name}{meant}; see: sheet help"))
}

/// What `sheet help` prints.
pub fn overview() -> String {
    let mut text =
        String::from("Circuits as texts and sheets: checked, run, drawn and carried.\n\n");
    text += "usage: sheet COMMAND ..\n\n";
    for command in all() {
        text += &format!("  {:<11} {}\n", command.name, command.summary);
    }
    text += "  help        this page, or that of a command: sheet help run\n";
    let absent: Vec<&str> = commands::absent().map(|(name, _)| name).collect();
    if !absent.is_empty() {
        let archive = archive::ARCHIVE;
        text += &format!("\nNot with {archive}: {}\n", absent.join(", "));
    }
    text += "\nFILE is a text, or a sheet if its name ends with .bin; - is standard input.\n";
    text += "Status: 0 good, 1 refused or different, 2 wrong use or a file that cannot be read.\n";
    text
}

/// What `sheet COMMAND --help` prints.
pub fn page(command: &Command) -> String {
    let Command { name, summary, help, usage, .. } = command;
    let mut text = format!("{summary}\n\nusage: {}\n", usage.line(name));
    if !help.is_empty() {
        text += &format!("\n{help}\n");
    }
    if !usage.flags.is_empty() || !usage.options.is_empty() {
        text.push('\n');
    }
    for (flag, what) in usage.flags {
        text += &format!("  {flag:<16} {what}\n");
    }
    for (option, value, what) in usage.options {
        text += &format!("  {:<16} {what}\n", format!("{option} {value}"));
    }
    text
}

fn help(desk: &mut Desk, command: Option<&str>) -> Done {
    let text = match command {
        None | Some("help") => overview(),
        Some(name) => page(find(name)?),
    };
    desk.out.write_all(text.as_bytes())?;
    Ok(GOOD)
}

fn version(desk: &mut Desk) -> Done {
    let header = archive::HEADER_VERSION;
    writeln!(desk.out, "sheet {}, sheet.h {header}", env!("CARGO_PKG_VERSION"))?;
    writeln!(desk.out, "{}: {}", archive::ARCHIVE, archive::CALLS)?;
    Ok(GOOD)
}

fn complete(desk: &mut Desk, arguments: &Arguments) -> Done {
    let shell = arguments.operand(0);
    if shell != "bash" {
        return wrong(format!("there is no completion for {shell}, only for bash"));
    }
    completion::bash(&mut *desk.out, &all())?;
    Ok(GOOD)
}
