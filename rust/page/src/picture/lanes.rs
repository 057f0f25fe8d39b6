//! Stretches side by side, so that none lies on another.

/// A lane for each stretch from one number to another, and how many there are. Short ones get theirs first.
pub fn lanes(stretches: &[(i32, i32)]) -> (Vec<usize>, usize) {
    let mut by_length: Vec<usize> = (0..stretches.len()).collect();
    by_length.sort_by_key(|&at| (stretches[at].1 - stretches[at].0, stretches[at].0));
    let mut lanes = vec![0; stretches.len()];
    let mut taken: Vec<Vec<(i32, i32)>> = Vec::new();
    for at in by_length {
        let (start, end) = stretches[at];
        let is_free = |lane: &Vec<(i32, i32)>| lane.iter().all(|&(from, to)| to < start || end < from);
        let lane = taken.iter().position(is_free).unwrap_or(taken.len());
        if lane == taken.len() {
            taken.push(Vec::new());
        }
        taken[lane].push(stretches[at]);
        lanes[at] = lane;
    }
    (lanes, taken.len())
}

#[cfg(test)]
mod tests {
    use super::lanes;

    #[test]
    fn what_touches_lies_side_by_side() {
        assert_eq!(lanes(&[]), (vec![], 0));
        assert_eq!(lanes(&[(0, 9), (2, 3), (3, 5), (6, 7)]), (vec![2, 0, 1, 0], 3));
        assert_eq!(lanes(&[(0, 1), (2, 3), (1, 2)]), (vec![0, 0, 1], 2));
    }
}
