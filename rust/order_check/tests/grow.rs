//! The calls that allocate.
#![forbid(unsafe_code)]

use order_check::{check_growing, check_in, place_size, tables, Kind, Lent, NoMemory, Report};

/// x := 1; read y ‖ y := 1; read x; K = 2.
const SB: &[u8] = b"PR\x02\x02\x02TH\x02IN\x05\x00\x00\x01\x00IN\x06\x00\x01\x00\x00\
    TH\x02IN\x05\x00\x01\x01\x00IN\x06\x00\x00\x00\x00";

/// Four threads of so many lines that read one location, which only makes them go on.
fn readers(lines: u8) -> Vec<u8> {
    let thread = [b"TH", &[lines][..], &b"IN\x06\x00\x00\x00\x00".repeat(lines.into())].concat();
    [b"PR\x04\x01\x02".as_slice(), &thread.repeat(4)].concat()
}

#[test]
fn a_run_comes_with_its_steps() {
    let checked = check_in(SB, Lent::with_table(SB, 455)).unwrap();
    let stale = Report::NotRobust { count: 7, steps: 3, thread: 2, kind: Kind::Read, location: 0, value: 0 };
    assert_eq!(checked.report, stale);
    let lines: Vec<String> = checked.steps.iter().map(|step| step.to_string()).collect();
    assert_eq!(lines, ["ST 1 W 0 1", "ST 1 R 1 0", "ST 2 W 1 1"]);
    // Seven places with two slots of eight bytes each.
    assert_eq!(checked.lent, Lent { table: 455, index: 112 });
    assert_eq!(check_growing(SB, usize::MAX).unwrap().report, stale);
}

#[test]
fn the_memory_grows_up_to_the_limit() {
    let place = place_size(2, 2);
    assert_eq!(place, 65);
    let lengths = |limit| tables(SB, limit).map(|lent| lent.table).collect::<Vec<_>>();
    // With its index a place has 81 bytes.
    assert_eq!(lengths(80), [0]);
    assert_eq!(lengths(81), [65]);
    assert_eq!(lengths(61_235), [49_075]);
    assert_eq!(lengths(61_236), [49_140]);
    assert_eq!(lengths(1_000_000), [49_152, 393_216, 802_425]);
    for limit in [0, 1_000, 100_000, 10_000_000, 1 << 30] {
        let all: Vec<Lent> = tables(SB, limit).collect();
        let last = *all.last().unwrap();
        assert_eq!(last, Lent::within(SB, limit));
        assert!(last.bytes() <= limit && last.bytes() + place + 16 > limit, "{last:?}");
        assert!(all.windows(2).all(|two| two[0].bytes() < two[1].bytes()));
    }
}

/// One thread of a fence after lines that are given by their fields, among so many locations.
fn before_a_fence(locations: u8, lines: &[[u8; 5]]) -> Vec<u8> {
    let mut bytes = [b"PR\x01".as_slice(), &[locations, 2], b"TH", &[lines.len() as u8 + 1]].concat();
    for fields in lines.iter().chain([&[11, 0, 0, 0, 0]]) {
        bytes.extend([b"IN".as_slice(), fields].concat());
    }
    bytes
}

#[test]
fn a_place_counts_the_location_of_a_fence() {
    // With its index a place of one thread and two locations has 66 bytes. The second fence is never reached.
    for program in [before_a_fence(1, &[]), before_a_fence(1, &[[4, 0, 2, 1, 0]])] {
        assert_eq!(Lent::within(&program, 2 * 66), Lent { table: 100, index: 32 });
        assert_eq!(Lent::with_table(&program, 99), Lent { table: 99, index: 16 });
        let lengths: Vec<usize> = tables(&program, 1_000_000).map(|lent| lent.table).collect();
        assert_eq!(lengths, [49_152, 393_216, 757_550]);
    }
    // Without a fence, and where none is accepted, the two bytes of the header count.
    assert_eq!(Lent::within(b"PR\x01\x01\x02TH\x00", 45), Lent { table: 29, index: 16 });
    assert_eq!(Lent::within(&before_a_fence(16, &[]), 1_200), Lent { table: 1_184, index: 16 });
}

#[test]
fn a_fence_is_checked_in_places_of_its_size() {
    let program = before_a_fence(1, &[]);
    let checked = check_growing(&program, 2 * 66).unwrap();
    assert_eq!((checked.report, checked.lent.table), (Report::Robust { count: 2 }, 100));
    assert_eq!(check_growing(&program, 2 * 66 - 1).unwrap().report, Report::Full { count: 1 });
    let refused = check_growing(&before_a_fence(16, &[]), 1 << 30).unwrap();
    assert_eq!((refused.report, refused.lent.table), (Report::Refused { number: 12 }, 49_152));
}

#[test]
fn it_goes_on_until_a_table_decides() {
    // 16 to the power of four situations, in places of 62 bytes.
    let program = readers(15);
    let checked = check_growing(&program, 1 << 30).unwrap();
    assert_eq!(checked.report, Report::Robust { count: 65_536 });
    assert_eq!(checked.lent.table, 49_152 * 8 * 8 * 8);
    let just = 65_536 * (62 + 16);
    assert_eq!(check_growing(&program, just).unwrap().report, Report::Robust { count: 65_536 });
    assert_eq!(check_growing(&program, just - 1).unwrap().report, Report::Full { count: 65_535 });
}

#[test]
fn what_is_no_program_is_refused_in_the_first_table() {
    for bytes in [&b""[..], b"PR", b"PR\xff\xff\xff"] {
        let checked = check_growing(bytes, 1 << 40).unwrap();
        assert!(matches!(checked.report, Report::Refused { .. }));
        assert_eq!(checked.lent.table, 49_152);
    }
}

#[test]
fn memory_that_can_not_be_had_is_an_error() {
    for table in [1 << 50, usize::MAX] {
        let asked = Lent::with_table(SB, table);
        let error = check_in(SB, asked).unwrap_err();
        assert_eq!(error, NoMemory { asked });
        assert!(error.to_string().starts_with(&format!("no memory for a table of {table} bytes")));
    }
}
