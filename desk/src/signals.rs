//! What can be seen of a run, cycle by cycle: the leaves of input and output,
//! what delays hold, and which alternatives fired.

use second::answers::Answer;
use second::records::{IF, KIND};

use crate::archive;
use crate::circuit::Accepted;
use crate::patterns::alternative;
use crate::state::{delays, Delay};

#[derive(Clone, Copy, PartialEq, Eq, Debug)]
pub enum Group {
    Input,
    Output,
    Delays,
    Fired,
}

/// What the values of a signal are.
#[derive(Clone, PartialEq, Eq, Debug)]
pub enum Of {
    /// Leaves of a flat type.
    Leaf(usize),
    /// Records of alternatives, or 0.
    Alternative,
}

#[derive(Clone, PartialEq, Eq, Debug)]
pub struct Signal {
    pub group: Group,
    pub name: String,
    pub of: Of,
}

pub struct Signals<'a> {
    accepted: &'a Accepted,
    pub signals: Vec<Signal>,
    delays: Vec<Delay>,
    choices: Vec<usize>,
    /// The sheet of the next cycle.
    pub sheet: Vec<u8>,
    width: usize,
}

impl<'a> Signals<'a> {
    /// The signals of a circuit that begins with a sheet.
    pub fn new(accepted: &'a Accepted, sheet: Vec<u8>) -> Signals<'a> {
        let (circuit, types) = (&accepted.circuit, accepted.circuit.types());
        let delays = delays(circuit);
        let is_choice = |number: &usize| circuit.records[*number][KIND] == IF;
        let choices: Vec<usize> = (0..circuit.records.len()).filter(is_choice).collect();
        let mut signals = Vec::new();
        let mut leaves = |group: Group, name: &str, of: usize| {
            for (path, of) in types.paths(of).into_iter().zip(types.leaves(of)) {
                signals.push(Signal { group, name: format!("{name}{path}"), of: Of::Leaf(of) });
            }
        };
        leaves(Group::Input, "input", accepted.input);
        leaves(Group::Output, "output", accepted.output);
        for delay in &delays {
            leaves(Group::Delays, &delay.name, delay.of);
        }
        for choice in &choices {
            let name = format!("IF {}", circuit.position(*choice));
            signals.push(Signal { group: Group::Fired, name, of: Of::Alternative });
        }
        let width = types.leaves(accepted.output).len();
        Signals { accepted, signals, delays, choices, sheet, width }
    }

    /// Takes one cycle, and gives the value of each signal in it. A delay shows
    /// what it holds in this cycle.
    pub fn cycle(&mut self, input: &[u8]) -> Result<Vec<u16>, Answer> {
        let fired = archive::fired(&self.sheet, input)?;
        let (outputs, next) = archive::run(&self.sheet, input, self.width)?;
        let held = self.delays.iter().flat_map(|delay| delay.held(&self.sheet));
        let leaves = input.iter().copied().chain(outputs).chain(held).map(u16::from);
        let values = leaves.chain(self.choices.iter().map(|choice| fired[*choice])).collect();
        self.sheet = next;
        Ok(values)
    }

    /// A value of a signal, for people.
    pub fn shown(&self, signal: &Signal, value: u16) -> String {
        match signal.of {
            Of::Leaf(of) => self.accepted.circuit.types().leaf(of, value as u8),
            Of::Alternative if value == 0 => "none".to_string(),
            Of::Alternative => alternative(&self.accepted.circuit, usize::from(value)),
        }
    }

    /// Whether a signal has two levels, and which of its values is the high one.
    pub fn high(&self, signal: &Signal) -> Option<u16> {
        const LEVELS: [(&str, &str); 7] = [
            ("hi", "lo"),
            ("high", "low"),
            ("true", "false"),
            ("on", "off"),
            ("one", "zero"),
            ("yes", "no"),
            ("t", "f"),
        ];
        let Of::Leaf(of) = signal.of else { return None };
        let names = self.accepted.circuit.types().constructors(of);
        let [one, two] = names.as_slice() else { return None };
        LEVELS.iter().find_map(|(high, low)| {
            if [one, two] == [high, low] {
                Some(1)
            } else if [one, two] == [low, high] {
                Some(2)
            } else {
                None
            }
        })
    }
}
