//! Pairs of runs of which one has later inputs: leaves of its stimulus and of
//! its sheet's delays are 0 where those of the other need not be. Its outputs
//! and next sheet are to be at or below those of the other.

use super::case::Case;
use super::cases::any;
use super::mistakes::RunMistake;
use super::ordered::{Pair, Pairs};
use crate::frame::lender::Lender;
use crate::order::{lower_sheet, lower_stimulus};
use crate::random::Random;
use crate::records::{read, FEEDBACK, KIND};
use crate::rule::IN_FORCE;

const OUTPUTS: &str = "pairs with strictly lower outputs";
const DELAYS: &str = "pairs with strictly lower delay leaves";
const SAME_SHEET: &str = "pairs of one sheet with strictly lower outputs";
const SAME_STIMULUS: &str = "pairs of one stimulus with strictly lower outputs";
const FEEDBACKS: &str = "pairs with a feedback and strictly lower outputs";
const NO_CYCLES: &str = "pairs of no cycles with strictly lower delay leaves";
const THERE: &str = "pairs with a defined output leaf at a cycle with lower inputs";

/// The pairs of which one has later inputs.
pub struct Late;

impl Pairs for Late {
    const COMMAND: &'static str = "late";
    const WHAT: &'static str = "pairs";
    const CASES: &'static str = "--pairs";
    const LEAST: u64 = 20_000;
    const QUOTAS: &'static [(&'static str, u64)] = &[
        (OUTPUTS, 5_000),
        (DELAYS, 1_500),
        (SAME_SHEET, 1_000),
        (SAME_STIMULUS, 500),
        (FEEDBACKS, 1_000),
        (THERE, 1_000),
        (NO_CYCLES, 100),
    ];
    const MISTAKES: &'static [(&'static str, RunMistake)] =
        &[("else-when-undecided", RunMistake::ElseWhenUndecided)];

    /// Both runs by the archive, or by the second simulator with a mistake.
    fn make(lender: &mut Lender, mistake: Option<RunMistake>, random: &mut Random) -> Option<Pair> {
        let second = any("one call", random)?;
        let cases = [later(&second, random), second];
        Some(Pair::of(cases, lender, mistake, IN_FORCE))
    }

    fn counts(pair: &Pair) -> Vec<(&'static str, bool)> {
        let [first, second] = &pair.cases;
        let feedback = read(&second.sheet).iter().any(|record| record[KIND] == FEEDBACK);
        let outputs = pair.outputs_lower();
        vec![
            (OUTPUTS, outputs),
            (DELAYS, pair.delays_lower()),
            (SAME_SHEET, outputs && first.sheet == second.sheet),
            (SAME_STIMULUS, outputs && first.stimulus == second.stimulus),
            (FEEDBACKS, outputs && feedback),
            (THERE, there(pair)),
            (NO_CYCLES, first.stimulus.is_empty() && pair.delays_lower()),
        ]
    }
}

/// The same call with lower leaves: in the stimulus, in the delays or in both.
fn later(case: &Case, random: &mut Random) -> Case {
    let one_in = random.pick(&[1, 2, 3, 8]).unwrap_or(1);
    let mut case = case.clone();
    let which = random.below(4);
    if which != 0 {
        case.stimulus = lower_stimulus(&case.stimulus, one_in, random);
    }
    if which != 1 {
        case.sheet = lower_sheet(&case.sheet, one_in, random);
    }
    case
}

/// Whether the first run has a defined output leaf in a cycle whose inputs are
/// strictly lower.
fn there(pair: &Pair) -> bool {
    let cycles = pair.left[0].packed as u32 as usize;
    let [first, second] = &pair.cases;
    let leaves = |bytes: &[u8], cycle: usize| {
        let each = bytes.len() / cycles;
        bytes[cycle * each..(cycle + 1) * each].to_vec()
    };
    (0..cycles).any(|cycle| {
        leaves(&first.stimulus, cycle) != leaves(&second.stimulus, cycle)
            && leaves(&pair.left[0].outputs, cycle).iter().any(|&leaf| leaf != 0)
    })
}
