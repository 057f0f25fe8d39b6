//! How much memory there is, and how much is used without being asked for.

use std::fs;

/// The most that tables with their indexes get by themselves: 1 GiB or a quarter of the machine's memory, whichever is
/// less.
pub fn limit() -> usize {
    const MOST: usize = 1 << 30;
    [field("MemTotal"), group("memory.max")]
        .into_iter()
        .flatten()
        .fold(MOST, |least, total| least.min(total / 4))
}

/// What can be had now, where the system tells.
pub fn available() -> Option<usize> {
    let left = || group("memory.max")?.checked_sub(group("memory.current")?);
    field("MemAvailable").into_iter().chain(left()).min()
}

/// A number on the memory of the group of processes that this one is in, where that is bounded.
fn group(name: &str) -> Option<usize> {
    fs::read_to_string(format!("/sys/fs/cgroup/{name}")).ok()?.trim().parse().ok()
}

/// A field of what Linux says of its memory, in bytes.
fn field(name: &str) -> Option<usize> {
    let text = fs::read_to_string("/proc/meminfo").ok()?;
    let line = text.lines().find_map(|line| line.strip_prefix(name)?.strip_prefix(':'))?;
    let kibibytes: usize = line.trim().strip_suffix(" kB")?.parse().ok()?;
    kibibytes.checked_mul(1024)
}

/// A number of bytes for people.
pub fn shown(bytes: usize) -> String {
    const UNITS: [(&str, usize); 3] = [("GiB", 1 << 30), ("MiB", 1 << 20), ("KiB", 1 << 10)];
    // A little less than a unit is shown as one.
    match UNITS.into_iter().find(|&(_, unit)| bytes >= unit - unit / 100) {
        None if bytes == 1 => "1 byte".into(),
        None => format!("{bytes} bytes"),
        Some((name, unit)) if bytes.is_multiple_of(unit) => format!("{} {name}", bytes / unit),
        Some((name, unit)) => format!("{:.1} {name}", bytes as f64 / unit as f64),
    }
}

#[cfg(test)]
mod tests {
    use super::{available, field, limit, shown};

    #[test]
    fn bytes_are_shown_in_the_largest_unit() {
        let cases = [
            (0, "0 bytes"),
            (1, "1 byte"),
            (2, "2 bytes"),
            (1013, "1013 bytes"),
            (1020, "1.0 KiB"),
            (1024, "1 KiB"),
            (49_152, "48 KiB"),
            (1536, "1.5 KiB"),
            (3 << 20, "3 MiB"),
            ((1 << 30) - 70, "1.0 GiB"),
            (1 << 30, "1 GiB"),
            ((1 << 30) + (1 << 29), "1.5 GiB"),
        ];
        for (bytes, text) in cases {
            assert_eq!(shown(bytes), text);
        }
    }

    #[test]
    fn the_limit_is_within_the_machine() {
        let total = field("MemTotal").expect("the tests run on Linux");
        assert!(limit() <= total / 4 && limit() <= 1 << 30 && limit() > 0);
        assert!(available().is_some_and(|available| available <= total));
        assert_eq!(field("Mem"), None);
    }
}
