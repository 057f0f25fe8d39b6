//! The figures that the table is for: how many times the plain checker's time the proved one takes, and how much the
//! time of a situation grows.

use std::time::Duration;

use crate::measure::Measured;

/// Programs with fewer situations are small: about 10,000, since sizes are not round.
pub const FROM: usize = 7_500;

/// The lines below the table, for what was measured of each family, the smallest program first.
pub fn summary(families: &[(&str, Vec<Measured>)]) -> Vec<String> {
    let large = some(families, |measured| measured.situations >= FROM);
    let small = some(families, |measured| measured.situations < FROM);
    let growths = |time: fn(&Measured) -> Duration| {
        large.iter().filter_map(move |(name, all)| Some((*name, growth(all, time)?)))
    };
    let growth_lines = [
        told("growth of the plain checker's time for a situation, first to last", growths(|one| one.plain)),
        told("growth of the proved checker's", growths(|one| one.proved)),
    ];
    let of_large = ratio_lines(&large).into_iter().chain(growth_lines);
    let of_large = of_large.flatten().map(|line| format!("from {FROM} situations on, {line}"));
    let of_small = ratio_lines(&small).into_iter().flatten();
    of_large.chain(of_small.map(|line| format!("below {FROM} situations, {line}"))).collect()
}

/// Some programs of each family.
type Some<'a> = Vec<(&'a str, Vec<&'a Measured>)>;

fn some<'a>(families: &'a [(&str, Vec<Measured>)], is_one: fn(&Measured) -> bool) -> Some<'a> {
    let of = |all: &'a Vec<Measured>| all.iter().filter(|measured| is_one(measured)).collect();
    families.iter().map(|(name, all)| (*name, of(all))).collect()
}

/// Mean and largest ratio.
fn ratio_lines(some: &Some) -> [Option<String>; 2] {
    let ratios = || some.iter().flat_map(|(name, all)| all.iter().map(|one| (*name, one.ratio())));
    let mean = mean(ratios()).map(|mean| format!("geometric mean of the ratio: {mean:.2}"));
    [mean, told("ratio", ratios())]
}

/// The largest of the numbers.
fn told<'a>(what: &str, numbers: impl Iterator<Item = (&'a str, f64)>) -> Option<String> {
    largest(numbers).map(|(name, number)| format!("largest {what}: {number:.2} ({name})"))
}

/// How many times the time for a situation of the first program that of the last is, where there are two.
fn growth(all: &[&Measured], time: fn(&Measured) -> Duration) -> Option<f64> {
    match all {
        [first, .., last] => Some(last.each(time) / first.each(time)),
        _ => None,
    }
}

/// The largest number, with its name.
pub fn largest<'a>(numbers: impl Iterator<Item = (&'a str, f64)>) -> Option<(&'a str, f64)> {
    numbers.max_by(|(_, one), (_, other)| one.total_cmp(other))
}

/// The geometric mean of numbers.
pub fn mean<'a>(numbers: impl Iterator<Item = (&'a str, f64)>) -> Option<f64> {
    let logarithms: Vec<f64> = numbers.map(|(_, number)| number.ln()).collect();
    let count = logarithms.len();
    (count > 0).then(|| (logarithms.iter().sum::<f64>() / count as f64).exp())
}

#[cfg(test)]
mod tests {
    use super::{mean, summary, Measured};
    use crate::successors::Successors;
    use std::time::Duration;

    fn measured(situations: usize, plain: u64, proved: u64) -> Measured {
        let [plain, proved] = [plain, proved].map(Duration::from_millis);
        Measured { situations, place: 29, plain, proved, successors: Successors::default() }
    }

    #[test]
    fn of_two_families() {
        let small = measured(100, 1, 50);
        let smaller = measured(10, 1, 2);
        let first = vec![smaller, small, measured(10_000, 10, 20), measured(100_000, 130, 260)];
        let second = vec![measured(10_000, 20, 40), measured(1_000_000, 2_200, 35_200)];
        let lines = summary(&[("a", first), ("b", second)]);
        let growth = "growth of the plain checker's time for a situation, first to last";
        // The ratios are 2, 2, 2 and 16, whose product is 128; the small ones are 2 and 50.
        let ends = [
            "from 7500 situations on, geometric mean of the ratio: 3.36",
            "from 7500 situations on, largest ratio: 16.00 (b)",
            &format!("from 7500 situations on, largest {growth}: 1.30 (a)"),
            "from 7500 situations on, largest growth of the proved checker's: 8.80 (b)",
            "below 7500 situations, geometric mean of the ratio: 10.00",
            "below 7500 situations, largest ratio: 50.00 (a)",
        ];
        assert_eq!(lines, ends);
    }

    #[test]
    fn of_nothing() {
        assert_eq!(summary(&[("a", vec![])]), [""; 0]);
        assert_eq!(mean([].into_iter()), None);
    }
}
