//! Fences: document 02, Point 5, as far as the reader, the locations and the places go.
#![forbid(unsafe_code)]

use program::Operand::Constant;
use program::{encode, place_size, read, what_check_asks, Line, Program};

/// One thread of these lines among so many named locations, with K = 2.
fn bytes(locations: u8, lines: &[[u8; 5]]) -> Vec<u8> {
    let count = u8::try_from(lines.len()).unwrap();
    let lines = lines.iter().flat_map(|fields| [b"IN".as_slice(), fields].concat());
    [b"PR\x01".as_slice(), &[locations, 2], b"TH", &[count]].concat().into_iter().chain(lines).collect()
}

/// The number of the check that fails, 0 for an accepted program.
fn answer(locations: u8, lines: &[[u8; 5]]) -> u8 {
    read(&bytes(locations, lines)).err().unwrap_or(0)
}

const FENCE: [u8; 5] = [11, 0, 0, 0, 0];
const WRITE: Line = Line::Write { location: 0, a: Constant(1) };

fn program(locations: u8, threads: Vec<Vec<Line>>) -> Program {
    Program { threads, locations, values: 2 }
}

#[test]
fn a_fence_is_read_and_spelled_without_fields() {
    let fenced = program(15, vec![vec![WRITE, Line::Fence]]);
    let spelled = bytes(15, &[[5, 0, 0, 1, 0], FENCE]);
    assert_eq!(read(&spelled), Ok(fenced.clone()));
    assert_eq!(encode(&fenced), spelled);
}

#[test]
fn check_12_refuses_a_fence_beside_sixteen_locations() {
    for locations in 1..=16 {
        assert_eq!(answer(locations, &[FENCE]), if locations == 16 { 12 } else { 0 }, "L = {locations}");
    }
    // Sixteen without a fence are accepted, and a fence counts where no run reaches it.
    assert_eq!(answer(16, &[[5, 0, 0, 1, 0]]), 0);
    assert_eq!(answer(16, &[[4, 0, 2, 1, 0], FENCE]), 12);
    assert_eq!(what_check_asks(12), "a program with op 11, a fence, must have an L of at most 15");
}

#[test]
fn check_12_is_asked_directly_after_check_5() {
    for field in 1..5 {
        for value in 1..=255 {
            let mut fields = FENCE;
            fields[field] = value;
            assert_eq!(answer(16, &[fields]), 12, "{fields:?}");
            assert_eq!(answer(15, &[fields]), 6, "{fields:?}");
        }
    }
    for op in [0, 12, 255] {
        assert_eq!(answer(16, &[[op, 0, 0, 0, 0]]), 5, "op {op}");
    }
    // The line's record comes first, and an earlier line's checks.
    let whole = bytes(16, &[FENCE]);
    assert_eq!(read(&whole[..whole.len() - 1]), Err(3));
    assert_eq!(answer(16, &[[5, 0, 0, 2, 0], FENCE]), 8);
    assert_eq!(answer(16, &[FENCE, [0, 0, 0, 0, 0]]), 12);
    // What comes after the threads is asked after it.
    assert_eq!(read(&[whole, vec![0]].concat()), Err(12));
}

#[test]
fn no_line_names_the_location_of_the_fences() {
    for locations in 1..=15 {
        for op in 5..=10 {
            let naming = |target| answer(locations, &[FENCE, [op, 0, target, 0, 0]]);
            assert_eq!((naming(locations - 1), naming(locations)), (0, 7), "op {op}, L = {locations}");
        }
    }
}

#[test]
fn a_fence_makes_a_location_after_the_named_ones() {
    let plain = program(2, vec![vec![WRITE], vec![]]);
    assert_eq!((plain.has_fence(), plain.locations, plain.all_locations()), (false, 2, 2));
    assert_eq!(plain.most_locations(), 16);
    // In any thread, once or more often, and behind a jump that always passes over it.
    let jump = Line::Jump { target: 2, a: Constant(1) };
    let (once, unreached) = (vec![Line::Fence], vec![jump, Line::Fence]);
    for threads in [vec![vec![], once.clone()], vec![once.clone(), once], vec![vec![], unreached]] {
        let fenced = program(2, threads);
        assert_eq!((fenced.has_fence(), fenced.locations, fenced.all_locations()), (true, 2, 3));
        assert_eq!(fenced.most_locations(), 15);
        assert_eq!((fenced.accessed(Line::Fence), Line::Fence.location()), (Some(2), None));
        assert_eq!((fenced.accessed(WRITE), fenced.accessed(jump)), (Some(0), None));
    }
}

#[test]
fn a_place_counts_the_location_of_the_fences() {
    assert_eq!(program(1, vec![vec![]]).place_size(), 29);
    // A table of 100 bytes has two places of these, and one of 99 has one.
    assert_eq!(program(1, vec![vec![Line::Fence]]).place_size(), 50);
    assert_eq!(program(2, vec![vec![WRITE], vec![Line::Fence]]).place_size(), 98);
    assert_eq!(program(15, vec![vec![Line::Fence]; 8]).place_size(), place_size(8, 16));
}

#[test]
fn a_moved_program_keeps_its_fences() {
    let lines = |location| vec![Line::Read { reg: 0, location }, Line::Fence];
    assert_eq!(program(1, vec![lines(0)]).moved(15, |_| 14), program(15, vec![lines(14)]));
    assert_eq!(program(15, vec![lines(14)]).accessed(Line::Fence), Some(15));
}
