//! Runs of thousands of accesses.

use std::time::{Duration, Instant};

use answer::Kind;
use explain::{flaw, Edge, Event, Execution, Relation};

use crate::reported::{check_in, explained_by, of_source_in, source, Reported};

/// The length of a table in which these models are decided.
const TABLE: usize = 16 << 20;

/// A model whose first thread goes 16 times round a loop, once for each value of its first register, 16 times round
/// that loop, and so on for so many registers, and then takes the last lines.
fn model(locations: &str, registers: usize, lines: &str, last: &str, other: &str) -> Reported {
    let count = |register| format!("r{register} := r{register} + 1\nif r{register} goto again\n");
    let counts: String = (0..registers).map(count).collect();
    let text =
        format!("values 16\nlocations {locations}\nthread\nagain:\n{lines}{counts}{last}thread\n{other}");
    of_source_in(TABLE, "a long run", source(&text)).unwrap()
}

/// Store buffering after 4,096 rounds of eight accesses.
fn store_buffering() -> Reported {
    let round = "d := r0\nr3 := d\nr3 := FADD(d, 1)\nd := r1\nr3 := d\nr3 := FADD(d, r2)\nd := r0\nr3 := d\n";
    model("x y d go", 3, round, "go := 1\nx := 1\nr3 := y\n", "wait(go = 1)\ny := 1\nr0 := x\n")
}

#[test]
fn thirty_thousand_accesses_are_explained_in_seconds() {
    let reported = store_buffering();
    let start = Instant::now();
    let explanation = explained_by(&reported, &mut |program| check_in(TABLE, program));
    let (words, data) = (explanation.words(true), explanation.json().to_string());
    assert!(start.elapsed() < Duration::from_secs(10), "{:?}", start.elapsed());
    let events = explanation.execution().events.len();
    assert!(events > 32_000, "{events}");
    let relations: Vec<Relation> = explanation.cycle().iter().map(|edge| edge.relation).collect();
    use Relation::{FromRead, ProgramOrder};
    assert_eq!(relations, [FromRead, ProgramOrder, FromRead, ProgramOrder]);
    assert_eq!(words.matches("\n\n").count(), 3);
    assert_eq!(data.matches("\"id\":").count(), events);
    assert!(words.contains("\n  robust      fences directly after lines 20 and 24\n"), "{}", words.len());
}

/// The location x has 2,561 writes: 160 of them, and the starting one, have the value that is named, and all may be
/// read.
#[test]
fn of_thousands_of_stale_writes_the_first_of_the_value_is_picked() {
    let writes = "x := r0\n".repeat(10);
    let Reported { program, report, steps, .. } = model("x y", 2, &writes, "r3 := y\n", "y := 1\nr0 := x\n");
    let execution = Execution::of(&program, &report, &steps).unwrap();
    assert_eq!(flaw(&execution), None);
    assert_eq!(execution.orders[0].len(), 2_561);
    assert_eq!((execution.picked, execution.newest), (0, 2_561));
    let Event { kind, source, read, .. } = execution.events[execution.stale()];
    assert_eq!((kind, source, read), (Kind::Read, Some(0), Some(0)));
    let cycle = execution.cycle().unwrap();
    assert_eq!(cycle[0], Edge { from: execution.stale(), to: 2_561, relation: Relation::FromRead });
    assert_eq!(cycle.len(), 4);
}
