//! `sheet`: circuits checked, run and drawn, for people who type them.

use std::io::{self, BufWriter, IsTerminal};
use std::process::ExitCode;
use std::thread;

use desk::desk::Desk;
use desk::program;

/// More stack than any call needs, and than the deepest text does.
const STACK: usize = 64 << 20;

fn main() -> ExitCode {
    let work = || {
        let words: Vec<String> =
            std::env::args_os().skip(1).map(|word| word.to_string_lossy().into_owned()).collect();
        let on_terminal = io::stderr().is_terminal();
        // The outputs themselves are progress enough.
        let terminal = on_terminal && !io::stdout().is_terminal();
        let plain = std::env::var_os("NO_COLOR").is_some_and(|value| !value.is_empty());
        let mut out = BufWriter::new(io::stdout());
        let mut err = io::stderr();
        let colours = on_terminal && !plain;
        program::run(&mut Desk { out: &mut out, err: &mut err, colours, terminal }, &words)
    };
    let worker = thread::Builder::new().stack_size(STACK).spawn(work);
    match worker.map(|worker| worker.join()) {
        Ok(Ok(status)) => ExitCode::from(status),
        Ok(Err(_)) => ExitCode::from(101),
        Err(error) => {
            eprintln!("sheet: no thread can be started: {error}");
            ExitCode::from(2)
        }
    }
}
