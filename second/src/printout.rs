//! What the program prints for a sheet and a stimulus.

use crate::answers::Answer;
use crate::listing::{cycle_line, last_line, type_line};
use crate::simulator::{ready, run, Call, Outcome};

/// The listing and the next sheet, or the refusal.
pub fn printout(sheet: &[u8], stimulus: &[u8]) -> Result<(String, Vec<u8>), Answer> {
    printout_of(run, sheet, stimulus)
}

/// The listing and the next sheet of what a run gives, or the refusal.
pub fn printout_of(
    run: impl FnOnce(&Call) -> Outcome,
    sheet: &[u8],
    stimulus: &[u8],
) -> Result<(String, Vec<u8>), Answer> {
    let ready = ready(sheet, stimulus)?;
    let call =
        Call { sheet, stimulus, output_length: ready.output_length, next_length: sheet.len() };
    let outcome = run(&call);
    let (Some(outputs), Some(next)) = (outcome.outputs, outcome.next) else {
        return Err(outcome.answer);
    };
    let mut text = String::new();
    type_line(&mut text, ready.circuit.typed.output);
    for (cycle, leaves) in outputs.chunks_exact(ready.leaves).enumerate() {
        cycle_line(&mut text, cycle, leaves);
    }
    last_line(&mut text, outcome.answer.place);
    Ok((text, next))
}
