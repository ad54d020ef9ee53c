//! The labels of delays, which stand in their words d.

use crate::records::{bytes, read, D, DELAY, KIND};

/// A sheet with the label 0 at each delay.
pub fn without_labels(sheet: &[u8]) -> Vec<u8> {
    let mut records = read(sheet);
    for record in records.iter_mut().filter(|record| record[KIND] == DELAY) {
        record[D] = 0;
    }
    bytes(&records)
}

/// The labels other than 0 that stand twice or more.
pub fn repeated(labels: &[u16]) -> Vec<u16> {
    let mut sorted: Vec<u16> = labels.iter().copied().filter(|&label| label != 0).collect();
    sorted.sort_unstable();
    let mut repeated: Vec<u16> =
        sorted.windows(2).filter(|two| two[0] == two[1]).map(|two| two[0]).collect();
    repeated.dedup();
    repeated
}

/// The labels of a sheet's delays, in the order of their records.
pub fn labels(sheet: &[u8]) -> Vec<u16> {
    read(sheet).iter().filter(|record| record[KIND] == DELAY).map(|record| record[D]).collect()
}
