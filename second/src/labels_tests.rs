//! Labels of delays change no verdict and no output, and stay.

use crate::generate::circuits::circuit;
use crate::generate::labels::{relabel, Labels};
use crate::generate::small::small;
use crate::labels::{labels, repeated, without_labels};
use crate::layout::layout;
use crate::random::Random;
use crate::records::{bytes, read, D};
use crate::samples;
use crate::simulator::{ready, run, Call};
use crate::verdict::check;
use crate::verdict_tests::t;

#[test]
fn any_label_is_accepted() {
    for label in [1, 2, 255, 256, 65_535] {
        assert_eq!(t(&[(3, D, label)]), (0, 1));
    }
    // Word d of a delay alone.
    assert_eq!(t(&[(2, D, 1)]), (3, 2));
    assert_eq!(t(&[(4, D, 1)]), (3, 4));
    assert_eq!(t(&[(11, D, 1)]), (3, 11));
}

#[test]
fn labels_that_stand_twice() {
    assert_eq!(repeated(&[0, 0, 1, 2]), []);
    assert_eq!(repeated(&[2, 1, 2, 0, 1, 2, 0, 3]), [1, 2]);
    let random = &mut Random::new(41);
    for count in [0, 1, 2, 40] {
        assert_eq!(Labels::None.draw(count, random), vec![0; count]);
        let distinct = Labels::Distinct.draw(count, random);
        assert!(repeated(&distinct).is_empty() && distinct.iter().all(|&label| label != 0));
        assert!(repeated(&Labels::Some.draw(count, random)).is_empty());
    }
    assert!((0..20).any(|_| !repeated(&Labels::Repeated.draw(4, random)).is_empty()));
}

#[test]
fn a_run_keeps_labels() {
    let mut records = read(&samples::t());
    records[3][D] = 513;
    let sheet = bytes(&records);
    let call = Call { sheet: &sheet, stimulus: &[1], output_length: 1, next_length: sheet.len() };
    let next = run(&call).next.unwrap_or_default();
    assert_eq!(labels(&next), [513]);
    assert_ne!(next, sheet);
    assert_eq!(labels(&without_labels(&next)), [0]);
}

#[test]
fn labels_change_nothing_else() {
    let mut random = Random::new(42);
    for k in 0..600 {
        let draft = if k % 2 == 0 { circuit(&mut random) } else { small(&mut random) };
        let records = layout(&draft, &mut random);
        let mut other = records.clone();
        relabel(&mut other, &mut random);
        let [one, other] = [bytes(&records), bytes(&other)];
        assert_eq!(check(&one), check(&other));
        let counts = match ready(&one, &[]) {
            Ok(ready) => ready.circuit.counts(ready.circuit.input()),
            Err(answer) => panic!("{answer:?}"),
        };
        let stimulus = counts.repeat(3);
        let ran = |sheet: &[u8]| {
            let Ok(ready) = ready(sheet, &stimulus) else { panic!("refused") };
            let output_length = ready.output_length;
            run(&Call { sheet, stimulus: &stimulus, output_length, next_length: sheet.len() })
        };
        let (first, second) = (ran(&one), ran(&other));
        assert_eq!(first.outputs, second.outputs);
        let (next, other_next) = (first.next.unwrap_or_default(), second.next.unwrap_or_default());
        assert_eq!(without_labels(&next), without_labels(&other_next));
        assert_eq!((labels(&next), labels(&other_next)), (labels(&one), labels(&other)));
    }
}
