//! The generator makes what it says it makes, and the same again for the same seed.
#![forbid(unsafe_code)]

use std::collections::HashSet;
use std::mem::discriminant;

use program::limits::{LINES, LOCATIONS, REGISTERS, THREADS, VALUES};
use program::{encode, read, Line, Operand, Program};
use random::{damage, noise, program, scattered, with_fences, Numbers, Shape};

fn programs(seed: u64, count: usize, shape: &Shape) -> Vec<Program> {
    let mut numbers = Numbers::new(seed);
    (0..count).map(|_| program(&mut numbers, shape)).collect()
}

#[test]
fn the_row_of_seed_0_is_that_of_splitmix64() {
    let mut numbers = Numbers::new(0);
    let row = [numbers.draw(), numbers.draw(), numbers.draw()];
    assert_eq!(row, [0xe220_a839_7b1d_cdaf, 0x6e78_9e6a_a1b9_65f4, 0x06c4_5d18_8009_454f]);
}

#[test]
fn a_seed_fixes_everything() {
    assert_eq!(programs(1, 20, &Shape::any()), programs(1, 20, &Shape::any()));
    assert_ne!(programs(1, 20, &Shape::any()), programs(2, 20, &Shape::any()));
    let damaged = |seed| {
        let mut bytes = vec![0; 50];
        damage(&mut Numbers::new(seed), &mut bytes);
        (bytes, noise(&mut Numbers::new(seed), 50))
    };
    assert_eq!(damaged(3), damaged(3));
}

#[test]
fn programs_of_any_shape_reach_every_limit() {
    let programs = programs(4, 2000, &Shape::any());
    for (what, limits, sizes) in [
        ("threads", THREADS, programs.iter().map(|p| p.threads.len() as u8).collect::<Vec<_>>()),
        ("locations", LOCATIONS, programs.iter().map(|p| p.locations).collect()),
        ("values", VALUES, programs.iter().map(|p| p.values).collect()),
        ("lines", LINES, programs.iter().flat_map(|p| &p.threads).map(|t| t.len() as u8).collect()),
    ] {
        for size in limits.clone() {
            assert!(sizes.contains(&size), "no program with {size} {what}");
        }
        assert!(sizes.iter().all(|size| limits.contains(size)), "{what} past the limits");
    }
}

#[test]
fn programs_use_every_op_register_and_the_end_of_a_thread() {
    let programs = programs(5, 200, &Shape::any());
    let lines: Vec<Line> = programs.iter().flat_map(|p| &p.threads).flatten().copied().collect();
    let kinds: HashSet<_> = lines.iter().map(discriminant).collect();
    assert_eq!(kinds.len(), 11);
    for register in 0..REGISTERS {
        let operand = Operand::Register(register);
        assert!(lines.iter().any(|line| matches!(line, Line::Write { a, .. } if *a == operand)));
    }
    let ends = programs.iter().flat_map(|p| &p.threads).any(|thread| {
        let end = thread.len() as u8;
        thread.iter().any(|line| matches!(line, Line::Jump { target, .. } if *target == end))
    });
    assert!(ends, "no jump to the end of a thread");
}

#[test]
fn small_programs_are_small() {
    for program in programs(6, 500, &Shape::small()) {
        assert!((1..=3).contains(&program.threads.len()));
        assert!((1..=3).contains(&program.locations));
        assert!((2..=3).contains(&program.values));
        assert!(program.threads.iter().all(|thread| thread.len() <= 4));
    }
}

#[test]
fn scattered_programs_use_as_many_of_more_locations() {
    let mut numbers = Numbers::new(9);
    let used = |program: &Program| {
        let lines = program.threads.iter().flatten();
        lines.filter_map(|line| line.location()).collect::<Vec<_>>()
    };
    let (mut met, mut fenced) = (HashSet::new(), 0);
    for shape in [Shape::litmus(), Shape::wide()] {
        for _ in 0..500 {
            let drawn = program(&mut numbers, &shape);
            let moved = scattered(&mut numbers, drawn.clone());
            assert!((9..=16).contains(&moved.locations) && moved.locations >= drawn.locations);
            let pairs: HashSet<(u8, u8)> = used(&drawn).into_iter().zip(used(&moved)).collect();
            let [from, to]: [HashSet<u8>; 2] =
                [pairs.iter().map(|pair| pair.0).collect(), pairs.iter().map(|pair| pair.1).collect()];
            assert_eq!((from.len(), to.len()), (pairs.len(), pairs.len()), "{pairs:?}");
            assert!(to.iter().all(|&location| location < moved.locations));
            assert!(moved.all_locations() <= 16);
            fenced += usize::from(moved.has_fence());
            met.extend(pairs);
        }
    }
    assert!((200..800).contains(&fenced), "{fenced} of 1000 have a fence");
    // Each of the first two goes to each of the sixteen.
    assert!((0..2).all(|from| (0..16).all(|to| met.contains(&(from, to)))), "{met:?}");
}

#[test]
fn drawn_programs_are_accepted_and_a_fair_share_of_them_has_fences() {
    for (what, shape) in [
        ("litmus", Shape::litmus()),
        ("racing", Shape::racing()),
        ("winding", Shape::winding()),
        ("looping", Shape::looping()),
        ("wide", Shape::wide()),
        ("crowded", Shape::crowded()),
        ("small", Shape::small()),
    ] {
        let programs = programs(10, 500, &shape);
        assert!(programs.iter().all(|program| read(&encode(program)).as_ref() == Ok(program)), "{what}");
        let fenced = programs.iter().filter(|program| program.has_fence()).count();
        assert!((100..=400).contains(&fenced), "{fenced} of 500 {what} programs have a fence");
    }
    for (locations, shape) in [(15, Shape { locations: 15..=15, ..Shape::any() }), (16, Shape::any())] {
        let drawn = programs(11, 500, &shape).into_iter().filter(|program| program.locations == locations);
        let drawn: Vec<Program> = drawn.collect();
        assert!(drawn.len() >= 50 && drawn.iter().all(|program| read(&encode(program)).is_ok()));
        let fenced = drawn.iter().filter(|program| program.has_fence()).count();
        assert_eq!(fenced > 0, locations == 15, "{fenced} fences beside {locations} locations");
    }
}

#[test]
fn with_fences_a_program_of_sixteen_locations_is_refused() {
    let mut numbers = Numbers::new(12);
    let (mut fifteen, mut sixteen) = (0, 0);
    for drawn in programs(13, 1000, &Shape::any()) {
        let fenced = with_fences(&mut numbers, drawn.clone());
        let has_lines = drawn.threads.iter().any(|lines| !lines.is_empty());
        assert_eq!(fenced.has_fence(), has_lines);
        assert_eq!((fenced.locations, fenced.threads.len()), (drawn.locations, drawn.threads.len()));
        match read(&encode(&fenced)) {
            Ok(accepted) => assert_eq!(accepted, fenced),
            Err(number) => assert_eq!((number, fenced.locations), (12, 16)),
        }
        fifteen += usize::from(has_lines && fenced.locations == 15);
        sixteen += usize::from(has_lines && fenced.locations == 16);
    }
    assert!(fifteen >= 20 && sixteen >= 20, "{fifteen} with 15 locations, {sixteen} with 16");
}

#[test]
fn damage_is_mostly_seen() {
    let original: Vec<u8> = (0..40).collect();
    let mut numbers = Numbers::new(7);
    let changed = (0..1000)
        .filter(|_| {
            let mut bytes = original.clone();
            damage(&mut numbers, &mut bytes);
            bytes != original
        })
        .count();
    assert!(changed > 900, "only {changed} of 1000 were changed");
}

#[test]
fn damage_and_noise_take_the_shortest_inputs() {
    let mut numbers = Numbers::new(8);
    let grown = (0..1000)
        .filter(|_| {
            let mut bytes = Vec::new();
            damage(&mut numbers, &mut bytes);
            !bytes.is_empty()
        })
        .count();
    assert!(grown > 500, "only {grown} of 1000 empty inputs got a byte");
    assert!((0..1000).all(|_| [b"".as_slice(), b"PR"].contains(&noise(&mut numbers, 1).as_slice())));
}
