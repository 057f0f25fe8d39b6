//! The word that was probably meant by one that is not known.

/// A longer word takes too long to compare, and is hardly a name that somebody mistyped.
const LONGEST_WORD: usize = 64;

/// The one candidate that differs from the word by the case of its letters alone, or else by a slip: one letter wrong,
/// missing, too much or in its neighbour's place; two such slips in a long word. In words of two letters or less no slip
/// is looked for. None where a candidate is the word itself, or where two are equally near.
pub fn nearest<'a>(word: &str, candidates: &[&'a str]) -> Option<&'a str> {
    if candidates.contains(&word) || word.len() > LONGEST_WORD {
        return None;
    }
    let slips = |candidate: &&str| match word.len().min(candidate.len()) {
        0..=2 => 0,
        3..=6 => 1,
        _ => 2,
    };
    let mut near: Vec<_> = candidates
        .iter()
        .filter(|candidate| word.len().abs_diff(candidate.len()) <= slips(candidate))
        .map(|candidate| (distance(&word.to_lowercase(), &candidate.to_lowercase()), *candidate))
        .filter(|(distance, candidate)| *distance <= slips(candidate))
        .collect();
    near.sort();
    match near[..] {
        [(first, _), (second, _), ..] if first == second => None,
        _ => Some(near.first()?.1),
    }
}

/// How many letters to change, remove, add or swap with the next one it takes to get from one word to the other.
fn distance(one: &str, other: &str) -> usize {
    let (one, other) = (one.as_bytes(), other.as_bytes());
    let mut rows = vec![(0..=other.len()).collect::<Vec<_>>()];
    for i in 1..=one.len() {
        let mut row = vec![i];
        for j in 1..=other.len() {
            let changed = rows[i - 1][j - 1] + usize::from(one[i - 1] != other[j - 1]);
            let mut least = changed.min(rows[i - 1][j] + 1).min(row[j - 1] + 1);
            if i > 1 && j > 1 && one[i - 1] == other[j - 2] && one[i - 2] == other[j - 1] {
                least = least.min(rows[i - 2][j - 2] + 1);
            }
            row.push(least);
        }
        rows.push(row);
    }
    rows[one.len()][other.len()]
}
