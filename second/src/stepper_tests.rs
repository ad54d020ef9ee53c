//! Looks and cycles worked out by hand from docs/SHEETS.md, "Sheet T".

use crate::accepted::Circuit;
use crate::evaluator::Right;
use crate::rule::IN_FORCE;
use crate::samples;
use crate::stepper::Stepper;
use crate::watch::Watch;

/// T shows 2 on the input 1 as often as it is looked at; a cycle takes its
/// delay to 1, and the next one back to 2.
#[test]
fn only_cycles_move_delays() {
    let t = samples::t();
    let Ok(circuit) = Circuit::read(&t) else { panic!("T is refused") };
    let mut watch = Watch::nothing();
    let mut stepper = Stepper::<Right>::new(&circuit, IN_FORCE, &mut watch);
    for _ in 0..3 {
        assert_eq!(stepper.look(&[1]), [2]);
        assert_eq!(stepper.next_sheet(&t), t);
    }
    assert_eq!(stepper.cycle(&[1]), [2]);
    assert_ne!(stepper.next_sheet(&t), t);
    assert_eq!(stepper.look(&[2]), [1]);
    assert_eq!(stepper.cycle(&[1]), [1]);
    assert_eq!(stepper.next_sheet(&t), t);
}
