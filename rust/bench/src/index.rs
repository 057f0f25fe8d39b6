//! The proved checker beside an index of any length: what one costs that is longer than a program needs.

use std::time::Duration;

use crate::checkers::proved;
use crate::families::{Family, Size};
use crate::lent::{fitting, Lent};
use crate::measure::shortest;
use crate::summary::{largest, mean};

/// What was measured of a program.
pub struct Beside {
    /// How many situations it has.
    pub situations: usize,
    /// The time beside an index of two slots a place, or up to four, as the benchmark lends it.
    pub fitting: Duration,
    /// The time beside the index that was asked for.
    pub asked: Duration,
}

impl Beside {
    /// How many times as long it takes beside the index that was asked for.
    pub fn times(&self) -> f64 {
        self.asked.as_secs_f64() / self.fitting.as_secs_f64()
    }
}

/// An index of so many slots, or none where there is no memory for it.
pub fn of_length(slots: usize) -> Option<Vec<u64>> {
    let mut index = Vec::new();
    index.try_reserve_exact(slots).ok()?;
    // No zeros: the system hands out the memory when it is written.
    index.resize(slots, u64::MAX);
    Some(index)
}

/// Measures the proved checker on a program beside a fitting index and the one that was asked for, in turns and in one
/// table.
///
/// No index is cleared between the runs: what it holds changes nothing, and to write a long one would empty the caches.
///
/// # Panics
///
/// Where the program is not found to be robust with the situations that its size names.
pub fn beside(family: &Family, size: &Size, asked: &mut [u64]) -> Beside {
    let mut lent = Lent::new(family, size);
    let mut fitting = vec![u64::MAX; fitting(size)];
    let mut indexes = [&mut fitting[..], asked];
    let [fitting, asked] = shortest(size, |turn| lent.run(proved, indexes[turn]));
    Beside { situations: size.situations, fitting, asked }
}

/// The first lines of the table.
pub fn header(slots: usize) -> [String; 2] {
    let title = title(slots);
    let rule = "-".repeat(title.len());
    [
        format!("| family     | situations | fitting, ns each | {title} |  times |"),
        format!("|------------|-----------:|-----------------:|-{rule}:|-------:|"),
    ]
}

/// The title of the column for so many slots.
fn title(slots: usize) -> String {
    format!("{slots:>7} slots, ns each")
}

/// The line of a program.
pub fn line(name: &str, slots: usize, found: &Beside) -> String {
    let each = |time: Duration| time.as_nanos() as f64 / found.situations as f64;
    let [fitting, asked] = [found.fitting, found.asked].map(each);
    let width = title(slots).len();
    let (situations, times) = (found.situations, found.times());
    format!("| {name:<10} | {situations:>10} | {fitting:>16.0} | {asked:>width$.0} | {times:>6.2} |")
}

/// The lines below the table.
pub fn summary(families: &[(&str, Vec<Beside>)], slots: usize) -> Vec<String> {
    let times = || families.iter().flat_map(|(name, all)| all.iter().map(|one| (*name, one.times())));
    let what = format!("the time beside {slots} slots, divided by that beside fitting ones");
    let mean = mean(times()).map(|mean| format!("geometric mean of {what}: {mean:.2}"));
    let largest = largest(times()).map(|(name, times)| format!("largest: {times:.2} ({name})"));
    mean.into_iter().chain(largest).collect()
}

#[cfg(test)]
mod tests {
    use super::{header, line, summary, Beside};
    use std::time::Duration;

    fn found(situations: usize, fitting: u64, asked: u64) -> Beside {
        let [fitting, asked] = [fitting, asked].map(Duration::from_nanos);
        Beside { situations, fitting, asked }
    }

    #[test]
    fn lines_are_as_long_as_the_header() {
        for slots in [0, 5_000, 2_097_152, 1_000_000_000_000] {
            let [first, second] = header(slots);
            let line = line("a", slots, &found(100, 20_000, 30_000));
            assert_eq!((second.len(), line.len()), (first.len(), first.len()));
            assert!(line.contains(" 200 |") && line.ends_with(" 300 |   1.50 |"), "{line}");
        }
    }

    #[test]
    fn of_two_families() {
        let families = [("a", vec![found(8, 100, 100)]), ("b", vec![found(8, 100, 400), found(9, 100, 50)])];
        let lines = summary(&families, 77);
        let mean = "geometric mean of the time beside 77 slots, divided by that beside fitting ones: 1.26";
        assert_eq!(lines, [mean, "largest: 4.00 (b)"]);
    }
}
