//! An accepted sheet as the simulator sees it: the only way from the check to
//! the run.

use crate::answers::Answer;
use crate::records::{
    self, expression_parts, Record, A, B, CONSTANT, DELAY, FLAT, KIND, NEXT, RECORD_BYTES,
};
use crate::typing::Typed;
use crate::values::Value;
use crate::verdict;

pub struct Circuit {
    pub records: Vec<Record>,
    pub typed: Typed,
    /// What the sheet holds in each constant and delay; empty elsewhere.
    pub leaves: Vec<Value>,
}

impl Circuit {
    /// The circuit of an accepted sheet, or the answer to a refused one.
    pub fn read(sheet: &[u8]) -> Result<Circuit, Answer> {
        let typed = verdict::judge(sheet)?;
        let records = records::read(sheet);
        let value = |record: &Record| -> Value {
            let leaves = leaf_chain(&records, record);
            leaves.map(|leaf| records[leaf][A] as u8).collect()
        };
        let leaves = records.iter().map(value).collect();
        Ok(Circuit { records, typed, leaves })
    }

    /// The input's type.
    pub fn input(&self) -> u16 {
        self.records[0][A]
    }

    pub fn root(&self) -> usize {
        records::root(&self.records)
    }

    /// How many leaves an expression, pattern or type has.
    pub fn width(&self, number: usize) -> usize {
        self.typed.widths[number] as usize
    }

    /// The constructor count of each leaf of a type, in order.
    pub fn counts(&self, of: u16) -> Vec<u8> {
        let mut counts = Vec::new();
        let mut open = vec![of];
        while let Some(number) = open.pop() {
            let record = self.records[usize::from(number)];
            if record[KIND] == FLAT {
                counts.push(record[A] as u8);
            } else {
                open.extend([record[B], record[A]]);
            }
        }
        counts
    }

    /// The delays in an expression, itself included.
    pub fn delays_in(&self, number: usize) -> Vec<usize> {
        let mut delays = Vec::new();
        let mut open = vec![number];
        while let Some(number) = open.pop() {
            let record = &self.records[number];
            if record[KIND] == DELAY {
                delays.push(number);
            }
            open.extend(expression_parts(record).map(|(_, part)| part));
        }
        delays
    }

    /// All delays, in the order of their records.
    pub fn delays(&self) -> impl Iterator<Item = usize> + '_ {
        (1..self.records.len()).filter(|&number| self.records[number][KIND] == DELAY)
    }

    /// The leaf records of all delays.
    pub fn delay_leaves(&self) -> Vec<usize> {
        let delays = self.records.iter().filter(|record| record[KIND] == DELAY);
        delays.flat_map(|record| leaf_chain(&self.records, record)).collect()
    }

    /// Writes the values that delays hold into the leaves of a sheet.
    pub fn hold(&self, sheet: &mut [u8], held: &[Value]) {
        for (number, record) in self.records.iter().enumerate() {
            if record[KIND] != DELAY {
                continue;
            }
            for (leaf, byte) in leaf_chain(&self.records, record).zip(&held[number]) {
                let at = leaf * RECORD_BYTES + 2 * A;
                sheet[at..at + 2].copy_from_slice(&u16::from(*byte).to_le_bytes());
            }
        }
    }
}

/// The leaf records of a constant or delay; none for other records.
fn leaf_chain<'a>(records: &'a [Record], record: &Record) -> impl Iterator<Item = usize> + 'a {
    let first = match record[KIND] {
        CONSTANT | DELAY => record[B],
        _ => 0,
    };
    let other_than_zero = |number: u16| (number != 0).then_some(usize::from(number));
    std::iter::successors(other_than_zero(first), move |&leaf| other_than_zero(records[leaf][NEXT]))
}
