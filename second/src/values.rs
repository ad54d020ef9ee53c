//! Values: their leaves, one byte each; 0 is undefined.

pub type Value = Vec<u8>;

/// The value that is undefined in each of so many leaves.
pub fn undefined(leaves: usize) -> Value {
    vec![0; leaves]
}

/// Each leaf of v is 0 or equals that of w.
pub fn at_or_below(v: &[u8], w: &[u8]) -> bool {
    v.iter().zip(w).all(|(x, y)| *x == 0 || x == y)
}

/// How many values a type with these counts has; at most `usize::MAX`.
pub fn value_count(counts: &[u8]) -> usize {
    counts.iter().fold(1, |n: usize, &count| n.saturating_mul(usize::from(count) + 1))
}

/// All values of a type with these counts, undefined everywhere first.
pub fn all_values(counts: &[u8]) -> Vec<Value> {
    counts.iter().fold(vec![Value::new()], |shorter, &count| {
        let longer = |value: &Value| {
            let value = value.clone();
            (0..=count).map(move |leaf| {
                let mut value = value.clone();
                value.push(leaf);
                value
            })
        };
        shorter.iter().flat_map(longer).collect()
    })
}
