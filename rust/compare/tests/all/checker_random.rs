//! The two checkers on random programs and on damaged ones, each with several lengths of table, trace and index, and
//! these with two fillings of what is lent and in memory that was used before.

use compare::checker::{compare_program, random_program, Tally};
use program::encode;
use random::{damage, program, scattered, with_fences, Numbers, Shape};

/// What was compared on so many inputs, each made of the numbers of a seed.
fn compared(seed: u64, count: usize, input: impl Fn(&mut Numbers) -> Vec<u8>) -> Tally {
    let mut numbers = Numbers::new(seed);
    let mut tally = Tally::default();
    for number in 1..=count {
        let bytes = input(&mut numbers);
        if let Err(difference) = compare_program(&bytes, &mut numbers, &mut tally) {
            panic!("input {number}: {difference}");
        }
    }
    tally
}

#[test]
fn on_random_programs() {
    let tally = compared(1, 4_000, |numbers| encode(&random_program(numbers)));
    let Tally { robust, not_robust, full, short_trace, indexed, .. } = tally;
    assert!([robust, not_robust, full, short_trace].iter().all(|&count| count >= 500), "{tally}");
    assert!(indexed >= 40_000, "{tally}");
    assert!(tally.fenced >= 1_000 && tally.not_robust_fenced >= 100, "{tally}");
}

#[test]
fn on_programs_with_fences() {
    let tally = compared(5, 1_500, |numbers| {
        let drawn = program(numbers, &Shape::fenced());
        encode(&if numbers.once_in(3) { scattered(numbers, drawn) } else { drawn })
    });
    assert!(tally.fenced >= 1_000 && tally.not_robust_fenced >= 200, "{tally}");
}

#[test]
fn on_fences_that_are_refused_and_others() {
    let tally = compared(6, 3_000, |numbers| {
        let drawn = program(numbers, &Shape { locations: 15..=16, ..Shape::small() });
        encode(&with_fences(numbers, drawn))
    });
    assert!(tally.fence_refused >= 1_000 && tally.fenced >= 1_000, "{tally}");
}

#[test]
fn on_programs_with_long_traces() {
    let tally = compared(3, 1_000, |numbers| encode(&program(numbers, &Shape::winding())));
    assert!(tally.not_robust >= 1_000 && tally.short_trace >= 500, "{tally}");
    assert!(tally.steps.iter().all(|&steps| steps >= 1_000), "{tally}");
}

#[test]
fn on_programs_of_more_than_eight_locations() {
    let tally = compared(4, 1_500, |numbers| {
        let drawn = program(numbers, &Shape::litmus());
        encode(&scattered(numbers, drawn))
    });
    assert!(tally.not_robust_above_8 >= 500, "{tally}");
}

#[test]
fn on_damaged_programs() {
    let tally = compared(2, 20_000, |numbers| {
        let mut bytes = encode(&program(numbers, &Shape::small()));
        damage(numbers, &mut bytes);
        bytes
    });
    assert!(tally.refused >= 30_000 && tally.robust >= 1_000 && tally.fenced >= 100, "{tally}");
}
