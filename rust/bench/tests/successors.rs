//! The steps that the proved checker skips.
#![forbid(unsafe_code)]

use std::collections::HashMap;

use bench::families::ALL;
use bench::successors::{is_skipped, Successors};
use plain::{check, turns};
use program::{read, Program};

/// Larger programs have no other steps.
const LARGEST: usize = 12_000;

/// A program with its table, which has so many places.
fn searched(bytes: &[u8], situations: usize) -> (Program, Vec<u8>, usize) {
    let program = read(bytes).unwrap();
    let place = program.place_size();
    let mut table = vec![0; place * situations];
    assert_eq!(check(bytes, &mut table, &mut []).numbers(), [0, 0, situations as u64, 0, 0, 0, 0, 0]);
    (program, table, place)
}

/// The steps of a program of two threads with these lines, which has four situations.
fn of_two(first: &str, second: &str) -> (usize, usize) {
    of_two_with(4, first, second)
}

/// The same for a program of so many situations.
fn of_two_with(situations: usize, first: &str, second: &str) -> (usize, usize) {
    let text = format!("values 2\nlocations x y\nthread\n{first}\nthread\n{second}\n");
    let (program, table, _) = searched(&models::assemble(text.as_bytes()).unwrap(), situations);
    let Successors { all, made } = Successors::of(&program, &table);
    (all, made)
}

#[test]
fn of_two_threads_with_a_line_each() {
    // The second thread goes first, and then the step of the first one is skipped.
    assert_eq!(of_two("r0 := 1", "r0 := 1"), (4, 3));
    assert_eq!(of_two("r0 := x", "r0 := y"), (4, 3));
    assert_eq!(of_two("r0 := 1", "x := 1"), (4, 3));
    assert_eq!(of_two("x := 1", "r0 := 1"), (4, 3));
    // But not where both access x.
    assert_eq!(of_two("r0 := x", "r1 := x"), (4, 4));
    assert_eq!(of_two("wait(x = 0)", "r1 := x"), (4, 4));
}

#[test]
fn of_fences() {
    // A fence accesses a location of its own, which no other line does.
    assert_eq!(of_two("fence", "r0 := x"), (4, 3));
    assert_eq!(of_two("x := 1", "fence"), (4, 3));
    assert_eq!(of_two("fence", "r0 := 1"), (4, 3));
    // But other fences do, and who is the last matters.
    assert_eq!(of_two_with(5, "fence", "fence"), (4, 4));
}

#[test]
fn what_is_skipped_was_met_before() {
    let mut skipped = 0;
    for family in ALL {
        for size in family.sizes.iter().filter(|size| size.situations <= LARGEST) {
            let (program, table, place) = searched(&family.program(size), size.situations);
            // From which place each situation was met, and by which thread.
            let met: HashMap<&[u8], (u32, u8)> = table
                .chunks(place)
                .map(|place| (&place[9..], (u32::from_le_bytes(place[..4].try_into().unwrap()), place[4])))
                .collect();
            turns(&program, &table, |turn| {
                let now = (turn.place as u32, turn.thread);
                if is_skipped(&program, &turn) {
                    skipped += 1;
                    assert!(met[turn.next] < now, "{}, {:?}: {now:?}", family.name, size.rounds);
                }
            });
        }
    }
    assert!(skipped > 100_000, "{skipped}");
}
