//! A run as a picture: a row for each signal, a column for each cycle.

use std::fmt::Write;

use crate::signals::{Group, Signal, Signals};
use crate::xml::escaped;

/// The height of a row, and of the line of a signal in it.
const ROW: usize = 26;
const LINE: usize = 16;
const LETTER: usize = 7;

fn heading(group: Group) -> &'static str {
    match group {
        Group::Input => "input",
        Group::Output => "output",
        Group::Delays => "what delays hold",
        Group::Fired => "alternative that fired",
    }
}

/// The waves of some cycles, of which each has a value for each signal.
pub fn svg(signals: &Signals, cycles: &[Vec<u16>]) -> String {
    let names = signals.signals.iter().map(|signal| signal.name.chars().count());
    let left = LETTER * names.max().unwrap_or(0) + 24;
    let column = column(signals, cycles);
    let groups = 1 + signals.signals.windows(2).filter(|w| w[0].group != w[1].group).count();
    let width = left + column * cycles.len().max(1) + 10;
    let height = ROW * (signals.signals.len() + groups) + 30;
    let mut svg = format!(
        "<svg xmlns=\"http://www.w3.org/2000/svg\" class=\"waves\" width=\"{width}\" \
         height=\"{height}\" viewBox=\"0 0 {width} {height}\" role=\"img\">\n\
         <title>The run, cycle by cycle</title>\n"
    );
    let step = (40 / column).max(1);
    for number in (0..cycles.len()).step_by(step) {
        let x = left + column * number;
        let _ =
            writeln!(svg, "<line class=\"grid\" x1=\"{x}\" y1=\"18\" x2=\"{x}\" y2=\"{height}\"/>");
        let _ = writeln!(svg, "<text class=\"cycle\" x=\"{}\" y=\"13\">{number}</text>", x + 2);
    }
    let mut top = 20;
    let mut last = None;
    for (at, signal) in signals.signals.iter().enumerate() {
        if last != Some(signal.group) {
            let heading = heading(signal.group);
            let _ =
                writeln!(svg, "<text class=\"group\" x=\"4\" y=\"{}\">{heading}</text>", top + 18);
            top += ROW;
            last = Some(signal.group);
        }
        let name = escaped(&signal.name);
        let _ = writeln!(svg, "<text class=\"name\" x=\"16\" y=\"{}\">{name}</text>", top + 16);
        let values: Vec<u16> = cycles.iter().map(|values| values[at]).collect();
        let row = Row { signals, signal, left, column, top: top + 5 };
        row.draw(&values, &mut svg);
        top += ROW;
    }
    svg + "</svg>\n"
}

/// The width of a column: enough for the longest value, within bounds.
fn column(signals: &Signals, cycles: &[Vec<u16>]) -> usize {
    let mut longest = 2;
    for (at, signal) in signals.signals.iter().enumerate() {
        if signals.high(signal).is_none() {
            let shown = cycles.iter().map(|v| signals.shown(signal, v[at]).chars().count());
            longest = longest.max(shown.max().unwrap_or(0));
        }
    }
    (LETTER * longest + 8).clamp(22, 90)
}

struct Row<'a> {
    signals: &'a Signals<'a>,
    signal: &'a Signal,
    left: usize,
    column: usize,
    top: usize,
}

impl Row<'_> {
    fn draw(&self, values: &[u16], svg: &mut String) {
        // Equal values side by side are one piece.
        let mut from = 0;
        while from < values.len() {
            let same = values[from..].iter().take_while(|value| **value == values[from]).count();
            let before = from.checked_sub(1).map(|at| values[at]);
            self.piece(from, from + same, values[from], before, svg);
            from += same;
        }
    }

    fn piece(&self, from: usize, to: usize, value: u16, before: Option<u16>, svg: &mut String) {
        let (x, end) = (self.left + self.column * from, self.left + self.column * to);
        let (high, low) = (self.top, self.top + LINE);
        match self.signals.high(self.signal) {
            Some(_) if value == 0 => {
                let width = end - x;
                let _ = writeln!(
                    svg,
                    "<rect class=\"undefined\" x=\"{x}\" y=\"{high}\" width=\"{width}\" \
                     height=\"{LINE}\"/>"
                );
            }
            Some(up) => {
                let y = if value == up { high } else { low };
                let edge = before.filter(|before| *before != 0);
                let start = match edge {
                    Some(_) => format!("M{x} {} V{y}", high + low - y),
                    None => format!("M{x} {y}"),
                };
                let _ = writeln!(svg, "<path class=\"level\" d=\"{start} H{end}\"/>");
            }
            None => self.bus(x, end, value, svg),
        }
    }

    /// A value with a name, in a box with slanted ends.
    fn bus(&self, x: usize, end: usize, value: u16, svg: &mut String) {
        let (high, low) = (self.top, self.top + LINE);
        let middle = (high + low) / 2;
        let (a, b) = (x + 3, end - 3);
        let class = if value == 0 { "bus none" } else { "bus" };
        let path = format!("M{x} {middle} L{a} {high} H{b} L{end} {middle} L{b} {low} H{a} Z");
        let shown = self.signals.shown(self.signal, value);
        let room = (end - x - 6) / LETTER;
        let fits = shown.chars().count() <= room;
        let short: String = if fits {
            shown.clone()
        } else {
            shown.chars().take(room.saturating_sub(1)).chain(['…']).collect()
        };
        let (shown, short) = (escaped(&shown), escaped(&short));
        let _ = writeln!(svg, "<g><title>{shown}</title><path class=\"{class}\" d=\"{path}\"/>");
        let (x, y) = ((x + end) / 2, high + 12);
        let _ = writeln!(svg, "<text class=\"value\" x=\"{x}\" y=\"{y}\">{short}</text></g>");
    }
}
