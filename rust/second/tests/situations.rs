//! Situations worked out by hand from the graphs of short runs.
#![forbid(unsafe_code)]

use program::{read, Program};
use second::{LocationPart, Situation, State, ThreadPart};

const X: u16 = 0b01;
const Y: u16 = 0b10;
const ZERO: u16 = 0b01;

/// The situation after the schedule, with threads counted from 1.
fn after(program: &Program, schedule: &[usize]) -> Situation {
    let step = |state: State, thread: &usize| state.sc_step(program, thread - 1).expect("a run").1;
    Situation::of(&schedule.iter().fold(State::start(program), step))
}

/// A row of sets for x and y, and none for locations that are not there.
fn row([x, y]: [u16; 2]) -> [u16; 16] {
    let mut row = [0; 16];
    row[..2].copy_from_slice(&[x, y]);
    row
}

fn thread(line: u8, seen: u16, readable: [u16; 2], writable: [u16; 2]) -> ThreadPart {
    let [readable, writable] = [readable, writable].map(row);
    ThreadPart { line, registers: [0; 4], seen, readable, writable }
}

fn location(value: u8, seen: [u16; 2], readable: [u16; 2], writable: [u16; 2]) -> LocationPart {
    let [readable, writable] = [readable, writable].map(row);
    LocationPart { value, seen_by_newest: seen[0], seen_by_any: seen[1], readable, writable }
}

/// x := 1; read y ‖ y := 1; read x.
const SB: &[u8] = b"PR\x02\x02\x02TH\x02IN\x05\x00\x00\x01\x00IN\x06\x00\x01\x00\x00\
      TH\x02IN\x05\x00\x01\x01\x00IN\x06\x00\x00\x00\x00";

#[test]
fn the_start_has_seen_everything() {
    let none = [0, 0];
    let expected = Situation {
        threads: vec![thread(0, X | Y, none, none); 2],
        locations: vec![location(0, [X, X], none, none), location(0, [Y, Y], none, none)],
    };
    assert_eq!(after(&read(SB).unwrap(), &[]), expected);
}

#[test]
fn a_write_is_seen_by_its_thread_alone() {
    let expected = Situation {
        threads: vec![thread(1, X | Y, [0, 0], [0, 0]), thread(0, Y, [ZERO, 0], [ZERO, 0])],
        // The starting write of y comes before the new write of x.
        locations: vec![
            location(1, [X | Y, X | Y], [0, 0], [0, 0]),
            location(0, [Y, Y], [ZERO, 0], [ZERO, 0]),
        ],
    };
    assert_eq!(after(&read(SB).unwrap(), &[1]), expected);
}

#[test]
fn sb_before_its_witness() {
    // x := 1 comes before the read of y, and that, by from-read, before y := 1.
    let expected = Situation {
        threads: vec![
            thread(2, X, [0, ZERO], [0, ZERO]),
            // SC order hides nothing: thread 2 may still read the first 0 of x.
            thread(1, X | Y, [ZERO, 0], [ZERO, 0]),
        ],
        locations: vec![
            location(1, [X, X], [0, ZERO], [0, ZERO]),
            location(1, [X | Y, X | Y], [ZERO, 0], [ZERO, 0]),
        ],
    };
    assert_eq!(after(&read(SB).unwrap(), &[1, 1, 2]), expected);
}

#[test]
fn sb_on_locations_9_and_15_of_sixteen_before_its_witness() {
    let moved = read(SB).unwrap().moved(16, |location| if location == 0 { 9 } else { 15 });
    let found = after(&moved, &[1, 1, 2]);
    let seen: Vec<u16> = found.threads.iter().map(|thread| thread.seen).collect();
    // As above, with the starting writes of all other locations.
    assert_eq!(seen, [0x7fff, 0xffff]);
    for (x, location) in found.locations.iter().enumerate() {
        let of_newest = match x {
            9 => 0x7fff,
            15 => 0xffff,
            // A starting write has nothing before it, and has not been accessed.
            _ => 1 << x,
        };
        assert_eq!((location.seen_by_newest, location.seen_by_any), (of_newest, of_newest), "location {x}");
        let mut stale = [0; 16];
        stale[9] = if x == 9 { 0 } else { ZERO };
        stale[15] = if x == 15 { 0 } else { ZERO };
        assert_eq!((location.readable, location.writable), (stale, stale), "location {x}");
    }
}

#[test]
fn a_read_hides_what_its_source_has_seen() {
    // MP after x := 1; y := 1 ‖ read y: the thread has read 1 into register 0, and x := 1 happens before that.
    let mp = b"PR\x02\x02\x02TH\x02IN\x05\x00\x00\x01\x00IN\x05\x00\x01\x01\x00\
        TH\x02IN\x06\x00\x01\x00\x00IN\x06\x01\x00\x00\x00";
    let mut reader = thread(1, X | Y, [0, 0], [0, 0]);
    reader.registers[0] = 1;
    let expected = Situation {
        threads: vec![thread(2, X | Y, [0, 0], [0, 0]), reader],
        locations: vec![
            location(1, [X, X], [0, ZERO], [0, ZERO]),
            location(1, [X | Y, X | Y], [0, 0], [0, 0]),
        ],
    };
    assert_eq!(after(&read(mp).unwrap(), &[1, 1, 2]), expected);
}

#[test]
fn before_a_read_modify_write_nothing_can_be_placed() {
    // FADD(x, 1) ‖ CAS(x, 0 -> 0) with the register kept 0: the second finds 1, so it is a plain read.
    let program = read(
        b"PR\x02\x02\x02TH\x01IN\x07\x00\x00\x01\x00\
        TH\x01IN\x08\x00\x00\x00\x00",
    )
    .unwrap();
    let first = Situation {
        threads: vec![thread(1, X | Y, [0, 0], [0, 0]), thread(0, Y, [ZERO, 0], [0, 0])],
        locations: vec![location(1, [X | Y, X | Y], [0, 0], [0, 0]), location(0, [Y, Y], [ZERO, 0], [0, 0])],
    };
    assert_eq!(after(&program, &[1]), first);
    let mut reader = thread(1, X | Y, [0, 0], [0, 0]);
    reader.registers[0] = 1;
    let second = Situation { threads: vec![first.threads[0], reader], ..first };
    assert_eq!(after(&program, &[1, 2]), second);
}

#[test]
fn a_read_is_an_access_and_no_write() {
    // y := 1; read x ‖ nothing: the read of x comes after y := 1, and x has no new write.
    let program = read(b"PR\x01\x02\x02TH\x02IN\x05\x00\x01\x01\x00IN\x06\x00\x00\x00\x00").unwrap();
    let expected = Situation {
        threads: vec![thread(2, X | Y, [0, 0], [0, 0])],
        locations: vec![
            location(0, [X, X | Y], [0, ZERO], [0, ZERO]),
            location(1, [X | Y, X | Y], [0, 0], [0, 0]),
        ],
    };
    assert_eq!(after(&program, &[1, 1]), expected);
}

#[test]
fn only_the_next_write_counts_as_following() {
    // x := 1; FADD(x, 1) ‖ nothing, K = 3: the first 0 is followed by a plain write, the 1 by a read-modify-write.
    let program = read(b"PR\x02\x02\x03TH\x02IN\x05\x00\x00\x01\x00IN\x07\x01\x00\x01\x00TH\x00").unwrap();
    let found = after(&program, &[1, 1]);
    assert_eq!((found.threads[1].readable[0], found.threads[1].writable[0]), (0b011, 0b001));
    assert_eq!((found.locations[1].readable[0], found.locations[1].writable[0]), (0b011, 0b001));
}
