//! What was measured, as a table in Markdown.

use std::time::Duration;

use crate::measure::Measured;

/// The first lines of the table.
pub const HEADER: &str = "\
| family     | situations | bytes |  plain ms |   a second | ns each | growth | proved ms |   a second | ns each | growth |  ratio | steps |  made |
|------------|-----------:|------:|----------:|-----------:|--------:|-------:|----------:|-----------:|--------:|-------:|-------:|------:|------:|";

/// The line below the table: what its last two columns are.
pub const FOOTER: &str =
    "steps and made: successors a situation has, and those that the proved checker's search makes, on average";

/// The line of a program, with the next smaller one of its family.
pub fn line(name: &str, measured: &Measured, smaller: Option<&Measured>) -> String {
    let Measured { situations, place, successors, .. } = measured;
    let plain = part(measured, smaller, |measured| measured.plain);
    let proved = part(measured, smaller, |measured| measured.proved);
    let ratio = measured.ratio();
    let [all, made] = [successors.all, successors.made].map(|steps| steps as f64 / *situations as f64);
    let front = format!("| {name:<10} | {situations:>10} | {place:>5} | {plain} | {proved} |");
    format!("{front} {ratio:>6.2} | {all:>5.2} | {made:>5.2} |")
}

/// The columns of one checker.
fn part(measured: &Measured, smaller: Option<&Measured>, time: fn(&Measured) -> Duration) -> String {
    let ms = 1e3 * time(measured).as_secs_f64();
    let each = measured.each(time);
    let growth = smaller.map_or(String::new(), |smaller| format!("{:.2}", each / smaller.each(time)));
    format!("{ms:>9.3} | {:>10.0} | {:>7.0} | {growth:>6}", 1.0 / each, 1e9 * each)
}

impl Measured {
    /// How many times the plain checker's time the proved one took.
    pub fn ratio(&self) -> f64 {
        self.proved.as_secs_f64() / self.plain.as_secs_f64()
    }

    /// The seconds that a checker took for each situation.
    pub fn each(&self, time: fn(&Measured) -> Duration) -> f64 {
        time(self).as_secs_f64() / self.situations as f64
    }
}
