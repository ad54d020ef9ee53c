//! What is refused.

use super::asked::{answered, with_unused};
use crate::records::{bytes, read, A};
use crate::samples;

/// The lowest record that is a feedback or a flat type above 64.
#[test]
fn not_for_sets() {
    let t = samples::t();
    for stimulus in [&[][..], &[0], &[1], &[3], &[1, 2], &[3; 4]] {
        for output_length in [0, 1, 2] {
            let refused = (22, 2, vec![7; output_length]);
            assert_eq!(answered(&t, stimulus, output_length), refused);
        }
    }
    assert_eq!(answered(&with_unused(false), &[1], 1), (22, 3, vec![7]));
    // Feedback 2 is below the flat type 17; the flat type 1 below feedback 2.
    assert_eq!(answered(&with_unused(true), &[1], 1), (22, 2, vec![7]));
    let mut wide = read(&t);
    wide[1][A] = 65;
    assert_eq!(answered(&bytes(&wide), &[1], 1), (22, 1, vec![7]));
    // An ill-typed sheet first: T with a leaf above its type's count.
    let mut wrong = read(&t);
    wrong[14][A] = 3;
    assert_eq!(answered(&bytes(&wrong), &[1], 1), (7, 13, vec![7]));
}

#[test]
fn refusals() {
    let and = samples::and();
    for output_length in [0, 1, 2] {
        let unaltered = vec![7; output_length];
        for stimulus in [&[][..], &[1], &[1, 1, 1], &[1, 1, 1, 1], &[3; 4], &[1; 65_536]] {
            assert_eq!(answered(&and, stimulus, output_length), (8, 0, unaltered.clone()));
        }
        assert_eq!(answered(&and, &[3, 0], output_length), (9, 0, unaltered.clone()));
        assert_eq!(answered(&and, &[0, 255], output_length), (9, 1, unaltered.clone()));
    }
    for output_length in [0, 2, 3, 8] {
        assert_eq!(answered(&and, &[0, 0], output_length), (10, 1, vec![7; output_length]));
    }
    assert_eq!(answered(&and[1..], &[], 0), (1, 0, vec![]));
    let mut records = read(&and);
    records[0][A] = 0;
    assert_eq!(answered(&bytes(&records), &[], 1), (2, 0, vec![7]));
}
