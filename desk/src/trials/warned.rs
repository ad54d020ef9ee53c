//! The warning that an alternative can never fire, against the archive: in no
//! cycle does such an alternative fire, and some of the others do.

use std::collections::BTreeSet;

use desk::archive;
use desk::circuit::{Accepted, Circuit};
use desk::message::Place;
use desk::source::Source;
use desk::warnings::warnings;
use second::random::Random;
use second::records::{CONSTRUCTOR, KIND, PAIR_PATTERN, WHOLE};

use super::places::report;

const CYCLES: usize = 30;

/// Looks at so many circuits that have such a warning.
pub fn run(count: u64) -> bool {
    let mut random = Random::new(71);
    let (mut done, mut told, mut others) = (0, 0, 0);
    while done < count {
        let text = super::texts::sentence(&mut random).spell(&mut random).0;
        let source = Source { name: "text".to_string(), bytes: text.clone() };
        let Ok(circuit) = Circuit::read(source) else { continue };
        let Ok(accepted) = circuit.accepted() else { continue };
        let never = never(&accepted);
        if never.is_empty() {
            continue;
        }
        done += 1;
        told += never.len();
        let mut sheet = accepted.circuit.sheet.clone();
        let types = accepted.circuit.types();
        let (leaves, width) = (types.leaves(accepted.input), types.leaves(accepted.output).len());
        for _ in 0..CYCLES {
            let leaf = |of: &usize| random.below(types.count(*of) + 1) as u8;
            let input: Vec<u8> = leaves.iter().map(leaf).collect();
            let Ok(fired) = archive::fired(&sheet, &input) else { return false };
            let fired: Vec<usize> = fired.into_iter().map(usize::from).collect();
            if fired.iter().any(|record| never.contains(record)) {
                return report("an alternative fired that never can", &text);
            }
            others += fired.iter().filter(|record| **record != 0).count();
            let Ok((_, next)) = archive::run(&sheet, &input, width) else { return false };
            sheet = next;
        }
    }
    println!("compared {done} circuits: {told} alternatives never fired, others {others} times");
    others > told
}

/// The alternatives of which it is said that they can never fire.
fn never(accepted: &Accepted) -> BTreeSet<usize> {
    let circuit = &accepted.circuit;
    let said = warnings(accepted).into_iter().filter(|one| one.sentence.contains("never fire"));
    let places: Vec<Place> = said.map(|one| one.place).collect();
    let is_pattern =
        |record: usize| matches!(circuit.records[record][KIND], WHOLE | CONSTRUCTOR | PAIR_PATTERN);
    (0..circuit.records.len())
        .filter(|record| is_pattern(*record))
        .filter(|record| places.contains(&circuit.place(*record)))
        .collect()
}
