//! Words that are nearly another one.

/// The fewest letters to change, insert, leave out or swap with their neighbour
/// to make one word of another.
pub fn distance(one: &str, other: &str) -> usize {
    let (one, other): (Vec<char>, Vec<char>) = (one.chars().collect(), other.chars().collect());
    let mut rows = vec![(0..=other.len()).collect::<Vec<usize>>()];
    for i in 1..=one.len() {
        let mut row = vec![i];
        for j in 1..=other.len() {
            let change = usize::from(one[i - 1] != other[j - 1]);
            let mut least = (rows[i - 1][j] + 1).min(row[j - 1] + 1);
            least = least.min(rows[i - 1][j - 1] + change);
            let swapped =
                i > 1 && j > 1 && one[i - 1] == other[j - 2] && one[i - 2] == other[j - 1];
            if swapped {
                least = least.min(rows[i - 2][j - 2] + 1);
            }
            row.push(least);
        }
        rows.push(row);
    }
    rows[one.len()][other.len()]
}

/// The nearest of some words, if one is near: at most two letters away, and
/// fewer than half of the letters are others.
pub fn nearest<'a>(word: &str, words: impl Iterator<Item = &'a str>) -> Option<&'a str> {
    let letters = word.chars().count();
    let most = (letters / 2).clamp(1, 2);
    words
        .filter(|other| *other != word && other.len().abs_diff(letters) <= 2)
        .map(|other| (distance(word, other), other))
        .filter(|(distance, other)| *distance <= most && *distance < letters.min(other.len() + 1))
        .min()
        .map(|(_, other)| other)
}
