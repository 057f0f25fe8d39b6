//! The bytes of a place as docs/LAYOUT.md has them, written out by hand.

use compare::checker::{decode, Written};
use order_check::numbers;
use second::{LocationPart, Situation, ThreadPart};

/// A row of two sets of values: the rest is for locations that are not there.
fn row(first: u16, second: u16) -> [u16; 16] {
    let mut row = [0; 16];
    row[..2].copy_from_slice(&[first, second]);
    row
}

#[test]
fn each_byte_has_its_meaning() {
    // Two threads and two locations; every byte is its own place.
    let place: Vec<u8> = (0..65).collect();
    let Written { from, by, fingerprint, situation, .. } = decode(&place, 2, 2).unwrap();
    assert_eq!((from, by, fingerprint), (0x03_02_01_00, 4, 0x08_07_06_05));
    let threads = [
        ThreadPart {
            line: 9,
            registers: [11, 12, 13, 14],
            seen: 0x16_15,
            readable: row(0x22_21, 0x24_23),
            writable: row(0x32_31, 0x34_33),
        },
        ThreadPart {
            line: 10,
            registers: [15, 16, 17, 18],
            seen: 0x18_17,
            readable: row(0x26_25, 0x28_27),
            writable: row(0x36_35, 0x38_37),
        },
    ];
    let locations = [
        LocationPart {
            value: 19,
            seen_by_newest: 0x1a_19,
            seen_by_any: 0x1e_1d,
            readable: row(0x2a_29, 0x2c_2b),
            writable: row(0x3a_39, 0x3c_3b),
        },
        LocationPart {
            value: 20,
            seen_by_newest: 0x1c_1b,
            seen_by_any: 0x20_1f,
            readable: row(0x2e_2d, 0x30_2f),
            writable: row(0x3e_3d, 0x40_3f),
        },
    ];
    assert_eq!(situation, Situation { threads: threads.into(), locations: locations.into() });
}

#[test]
fn a_place_has_no_byte_less_or_more() {
    let bytes = [0; 2_000];
    for (threads, locations, size) in [(1, 1, 29), (2, 2, 65), (3, 1, 51), (8, 16, 1_681)] {
        for length in 0..bytes.len() {
            let found = decode(&bytes[..length], threads, locations);
            assert_eq!(found.is_some(), length == size, "{threads} threads, {locations} locations, {length}");
        }
    }
}

/// The first place of one thread and one location but for its fingerprint. All is 0 but the three sets of locations,
/// each of which has location 0.
const FIRST: [u8; 29] =
    [0, 0, 0, 0, 0, 0, 0, 0, 0, 0, 0, 0, 0, 0, 0, 1, 0, 1, 0, 1, 0, 0, 0, 0, 0, 0, 0, 0, 0];

/// Three bytes of 1 with one of 0 after each, and eight of 0, make (33^4 + 33^2 + 1) × 33^9.
fn fingerprint_of_first() -> u32 {
    1_187_011_u32.wrapping_mul(33_u32.wrapping_pow(9))
}

/// The first place of one thread and sixteen locations but for its fingerprint. The thread knows all, and each location
/// itself, by its newest write and by any access: location x is bit x.
fn first_of_sixteen() -> Vec<u8> {
    let head_line_registers_and_values = [0; 9 + 1 + 4 + 16];
    let all = [0xff, 0xff];
    let themselves = [
        1, 0, 2, 0, 4, 0, 8, 0, 16, 0, 32, 0, 64, 0, 128, 0, //
        0, 1, 0, 2, 0, 4, 0, 8, 0, 16, 0, 32, 0, 64, 0, 128,
    ];
    // A row of sixteen sets for the thread and for each location, twice.
    let nothing_stale = [0; 2 * 17 * 32];
    [&head_line_registers_and_values[..], &all, &themselves, &themselves, &nothing_stale].concat()
}

/// Each byte counts with as many factors 33 as there are bytes after it.
fn fingerprint_of_first_of_sixteen() -> u32 {
    let bytes = first_of_sixteen();
    let weighed = |(at, &byte): (usize, &u8)| {
        let after = bytes.len() - 1 - at;
        33_u32.wrapping_pow(after as u32).wrapping_mul(byte.into())
    };
    bytes.iter().enumerate().map(weighed).fold(0, u32::wrapping_add)
}

#[test]
fn the_fingerprint_is_over_the_situation() {
    assert_eq!(decode(&FIRST, 1, 1).unwrap().due, fingerprint_of_first());
    assert_eq!(decode(&first_of_sixteen(), 1, 16).unwrap().due, fingerprint_of_first_of_sixteen());
}

#[test]
fn the_library_writes_these_bytes() {
    for (program, place, fingerprint) in [
        (b"PR\x01\x01\x02TH\x00", FIRST.to_vec(), fingerprint_of_first()),
        (b"PR\x01\x10\x02TH\x00", first_of_sixteen(), fingerprint_of_first_of_sixteen()),
    ] {
        let mut expected = place;
        expected[5..9].copy_from_slice(&fingerprint.to_le_bytes());
        let mut table = vec![7; expected.len()];
        numbers(program, &mut table, &mut []);
        assert_eq!(table, expected);
    }
}
