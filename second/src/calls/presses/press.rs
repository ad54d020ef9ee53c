//! One press away: the lowest change of one input leaf that alters an output
//! leaf; a code of 0 to 9 or 21, and a place.

use crate::accepted::Circuit;
use crate::answers::Answer;
use crate::evaluator::Right;
use crate::one_leaf::judging::no_output_leaf;
use crate::rule::IN_FORCE;
use crate::stepper::Stepper;
use crate::stimulus;
use crate::watch::Watch;

/// What a press is handed: two slices to read, and the number of an output leaf.
#[derive(Clone, Copy)]
pub struct Call<'a> {
    pub sheet: &'a [u8],
    pub stimulus: &'a [u8],
    pub leaf: usize,
}

/// One input leaf, from 0, and the constructor that it is changed to.
#[derive(Clone, Copy, PartialEq, Eq, Debug)]
pub struct Change {
    pub leaf: usize,
    pub constructor: u8,
}

/// What a press gives.
#[derive(Clone, Copy, PartialEq, Eq, Debug)]
pub struct Outcome {
    pub answer: Answer,
    pub change: Option<Change>,
}

impl Outcome {
    /// Whether a change is found, its leaf and its constructor: zeros for none.
    pub fn numbers(&self) -> [u64; 3] {
        self.change
            .map_or([0; 3], |Change { leaf, constructor }| [1, leaf as u64, u64::from(constructor)])
    }
}

/// The rules that a comparison can replace to make a mistake.
#[derive(Clone, Copy)]
pub struct Rules {
    /// The changes of an input whose leaves have so many constructors, in the
    /// order in which they are tried.
    pub changes: fn(input: &[u8], counts: &[u8]) -> Vec<Change>,
    /// Whether an output leaf is altered from the first value to the second.
    pub alters: fn(u8, u8) -> bool,
    /// What becomes of an input leaf after a trial: it gets its present value.
    pub put_back: fn(leaf: &mut u8, present: u8),
}

pub const RULES: Rules = Rules {
    changes: lowest_first,
    alters: |before, after| before != after,
    put_back: |leaf, present| *leaf = present,
};

/// Every change of one leaf to a defined constructor other than its present
/// value: the lowest leaf first, and of each the lowest constructor.
pub fn lowest_first(input: &[u8], counts: &[u8]) -> Vec<Change> {
    let of_leaf = |(leaf, (&present, &count)): (usize, (&u8, &u8))| {
        let others = (1..=count).filter(move |&constructor| constructor != present);
        others.map(move |constructor| Change { leaf, constructor })
    };
    input.iter().zip(counts).enumerate().flat_map(of_leaf).collect()
}

/// The press of any call.
pub fn press(call: &Call) -> Outcome {
    press_by(&RULES, call)
}

/// The press of any call by some rules.
pub fn press_by(rules: &Rules, call: &Call) -> Outcome {
    match judge(call) {
        Ok(circuit) => {
            let change = first_change(rules, &circuit, call);
            Outcome { answer: Answer::accepted(0), change }
        }
        Err(answer) => Outcome { answer, change: None },
    }
}

/// The circuit of a call that nothing refuses; else the first that applies of
/// 1 to 7, 8, 9 and 21.
fn judge(call: &Call) -> Result<Circuit, Answer> {
    let circuit = Circuit::read(call.sheet)?;
    let faults = [
        stimulus::not_one_cycle(&circuit, call.stimulus),
        stimulus::wrong_input(&circuit, call.stimulus),
        no_output_leaf(&circuit, call.leaf),
    ];
    faults.into_iter().flatten().next().map_or(Ok(circuit), Err)
}

/// The first change that alters the output leaf, while each delay holds what
/// the sheet says.
fn first_change(rules: &Rules, circuit: &Circuit, call: &Call) -> Option<Change> {
    let mut watch = Watch::nothing();
    let mut stepper = Stepper::<Right>::new(circuit, IN_FORCE, &mut watch);
    let mut shown = |input: &[u8]| stepper.look(input)[call.leaf];
    let before = shown(call.stimulus);
    let changes = (rules.changes)(call.stimulus, &circuit.counts(circuit.input()));
    let mut input = call.stimulus.to_vec();
    changes.into_iter().find(|change| {
        input[change.leaf] = change.constructor;
        let after = shown(&input);
        (rules.put_back)(&mut input[change.leaf], call.stimulus[change.leaf]);
        (rules.alters)(before, after)
    })
}
