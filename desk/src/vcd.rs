//! A run as a value change dump, for GTKWave and other viewers. A cycle takes
//! one unit of time.

use crate::signals::{Group, Signal, Signals};

/// The short name of a signal in the dump.
fn code(number: usize) -> String {
    let mut number = number;
    let mut code = String::new();
    loop {
        code.push(char::from(b'!' + (number % 94) as u8));
        number /= 94;
        if number == 0 {
            return code;
        }
    }
}

/// A name of letters, digits and `_` alone: `input[1][2]` is `input_1_2`.
fn plain(name: &str) -> String {
    let mut plain = String::new();
    for c in name.chars() {
        if c.is_ascii_alphanumeric() {
            plain.push(c);
        } else if !plain.ends_with('_') && !plain.is_empty() {
            plain.push('_');
        }
    }
    plain.trim_end_matches('_').to_string()
}

fn scope(group: Group) -> &'static str {
    match group {
        Group::Input => "stimulus",
        Group::Output => "outputs",
        Group::Delays => "delays",
        Group::Fired => "fired",
    }
}

/// What stands before the first cycle.
pub fn head(signals: &Signals, title: &str) -> String {
    let mut text = String::from("$version sheet wave $end\n$timescale 1 ns $end\n");
    text += &format!("$scope module {} $end\n", plain(title));
    for group in [Group::Input, Group::Output, Group::Delays, Group::Fired] {
        let of_group = |(_, signal): &(usize, &Signal)| signal.group == group;
        let members: Vec<(usize, &Signal)> =
            signals.signals.iter().enumerate().filter(of_group).collect();
        if members.is_empty() {
            continue;
        }
        text += &format!("$scope module {} $end\n", scope(group));
        for (number, signal) in members {
            let kind = if signals.high(signal).is_some() { "wire" } else { "string" };
            let (code, name) = (code(number), plain(&signal.name));
            text += &format!("$var {kind} 1 {code} {name} $end\n");
        }
        text += "$upscope $end\n";
    }
    text + "$upscope $end\n$enddefinitions $end\n"
}

/// The changes of a cycle; all values in the first.
pub fn cycle(signals: &Signals, number: u64, before: Option<&[u16]>, values: &[u16]) -> String {
    let mut text = format!("#{number}\n");
    for (at, (signal, value)) in signals.signals.iter().zip(values).enumerate() {
        if before.is_some_and(|before| before[at] == *value) {
            continue;
        }
        let code = code(at);
        match signals.high(signal) {
            Some(_) if *value == 0 => text += &format!("x{code}\n"),
            Some(high) => text += &format!("{}{code}\n", u8::from(*value == high)),
            None => {
                let shown: String = signals.shown(signal, *value).split_whitespace().collect();
                text += &format!("s{shown} {code}\n");
            }
        }
    }
    text
}
