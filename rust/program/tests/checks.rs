//! Checks 1 to 9 of document 01 and 12 of document 02, each at its limits, and which of two failures wins.
#![forbid(unsafe_code)]

use program::read;

/// The number of the check that fails, 0 for an accepted program.
fn answer(bytes: &[u8]) -> u8 {
    read(bytes).err().unwrap_or(0)
}

/// One thread of one line with these fields, among 3 locations and 5 values.
fn line(fields: [u8; 5]) -> Vec<u8> {
    [b"PR\x01\x03\x05TH\x01IN".as_slice(), &fields].concat()
}

/// Every op with its used fields at their least, and 1 for reg, target, A and B where the field is used.
const OPS: [([u8; 5], [u8; 4]); 11] = [
    ([1, 0, 0, 0, 0], [1, 0, 1, 1]),
    ([2, 0, 0, 0, 0], [1, 0, 1, 1]),
    ([3, 0, 0, 0, 0], [1, 0, 1, 1]),
    ([4, 0, 0, 0, 0], [0, 1, 1, 0]),
    ([5, 0, 0, 0, 0], [0, 1, 1, 0]),
    ([6, 0, 0, 0, 0], [1, 1, 0, 0]),
    ([7, 0, 0, 0, 0], [1, 1, 1, 0]),
    ([8, 0, 0, 0, 0], [1, 1, 1, 1]),
    ([9, 0, 0, 0, 0], [0, 1, 1, 0]),
    ([10, 0, 0, 0, 0], [0, 1, 1, 1]),
    ([11, 0, 0, 0, 0], [0, 0, 0, 0]),
];

/// What the answer is when a used field has this value, by the place of the field.
fn answer_for_used(op: u8, field: usize, value: u8) -> u8 {
    let (number, in_range) = match field {
        0 => (6, value <= 3),
        1 if op == 4 => (7, value <= 1),
        1 => (7, value <= 2),
        _ => (8, value <= 4 || (128..=131).contains(&value)),
    };
    if in_range {
        0
    } else {
        number
    }
}

#[test]
fn check_1_wants_five_bytes_and_the_mark() {
    for length in 0..5 {
        assert_eq!(answer(&b"PR\x01\x01\x02"[..length]), 1);
    }
    assert_eq!(answer(b"PR\x01\x01\x02"), 3);
    assert_eq!(answer(b"PS\x01\x01\x02TH\x00"), 1);
    assert_eq!(answer(b"pR\x01\x01\x02TH\x00"), 1);
    assert_eq!(answer(b"TH\x00PR\x01\x01\x02"), 1);
    // The mark and what comes after it count before the range of T, L and K.
    assert_eq!(answer(b"PR\x00\x00"), 1);
}

#[test]
fn check_2_has_the_limits_of_the_header() {
    for byte in 0..=255 {
        let threads = [b"PR".as_slice(), &[byte, 1, 2], &b"TH\x00".repeat(byte.into())].concat();
        assert_eq!(answer(&threads), if (1..=8).contains(&byte) { 0 } else { 2 }, "T = {byte}");
        let locations = [b"PR\x01", [byte, 2].as_slice(), b"TH\x00"].concat();
        assert_eq!(answer(&locations), if (1..=16).contains(&byte) { 0 } else { 2 }, "L = {byte}");
        let values = [b"PR\x01\x01", [byte].as_slice(), b"TH\x00"].concat();
        assert_eq!(answer(&values), if (2..=16).contains(&byte) { 0 } else { 2 }, "K = {byte}");
    }
    // Before any record.
    assert_eq!(answer(b"PR\x09\x01\x02XX"), 2);
}

#[test]
fn check_3_wants_whole_records_with_their_marks() {
    for bytes in [
        b"PR\x01\x01\x02T".as_slice(),
        b"PR\x01\x01\x02TH",
        b"PR\x01\x01\x02TI\x00",
        b"PR\x01\x01\x02IN\x00",
        b"PR\x02\x01\x02TH\x00",
        b"PR\x02\x01\x02TH\x00IN\x00",
        b"PR\x01\x01\x02TH\x01",
        b"PR\x01\x01\x02TH\x01TH\x00",
        b"PR\x01\x01\x02TH\x01IN\x06\x00\x00\x00",
        b"PR\x01\x01\x02TH\x01IM\x06\x00\x00\x00\x00",
    ] {
        assert_eq!(answer(bytes), 3, "{bytes:?}");
    }
}

#[test]
fn check_3_wants_the_whole_record_before_its_fields_count() {
    // Op 99 in a line that is cut short.
    assert_eq!(answer(b"PR\x01\x01\x02TH\x01IN\x63\x00\x00\x00"), 3);
    // n = 200, but the mark is none.
    assert_eq!(answer(b"PR\x01\x01\x02TX\xc8"), 3);
}

#[test]
fn check_4_allows_64_lines() {
    let thread = |n: u8| {
        let lines = b"IN\x06\x00\x00\x00\x00".repeat(n.into());
        [b"PR\x01\x01\x02TH".as_slice(), &[n], &lines].concat()
    };
    for n in 0..=255 {
        assert_eq!(answer(&thread(n)), if n <= 64 { 0 } else { 4 }, "n = {n}");
    }
    // Before the lines are looked for.
    assert_eq!(answer(b"PR\x01\x01\x02TH\x41"), 4);
}

#[test]
fn check_5_allows_ops_1_to_11() {
    for op in 0..=255 {
        let expected = if (1..=11).contains(&op) { 0 } else { 5 };
        assert_eq!(answer(&line([op, 0, 0, 0, 0])), expected, "op {op}");
    }
    assert_eq!(answer(&line([12, 9, 9, 99, 99])), 5);
}

#[test]
fn checks_6_to_8_test_each_field_of_each_op() {
    for (fields, used) in OPS {
        for field in 0..4 {
            for value in 0..=255 {
                let mut changed = fields;
                changed[field + 1] = value;
                let expected = match used[field] {
                    1 => answer_for_used(fields[0], field, value),
                    _ if value == 0 => 0,
                    _ => 6,
                };
                assert_eq!(answer(&line(changed)), expected, "{changed:?}");
            }
        }
    }
}

#[test]
fn check_7_allows_every_location_and_no_other() {
    for (fields, used) in OPS {
        // The target of op 4 is a line.
        if used[1] == 0 || fields[0] == 4 {
            continue;
        }
        for locations in 1..=16 {
            for target in 0..=255 {
                let mut changed = fields;
                changed[2] = target;
                let bytes = [b"PR\x01".as_slice(), &[locations, 2], b"TH\x01IN", &changed].concat();
                assert_eq!(
                    answer(&bytes),
                    if target < locations { 0 } else { 7 },
                    "{changed:?}, L = {locations}"
                );
            }
        }
    }
}

#[test]
fn of_two_failures_in_one_line_the_smaller_number_wins() {
    assert_eq!(answer(&line([8, 4, 3, 5, 5])), 6);
    assert_eq!(answer(&line([8, 3, 3, 5, 5])), 7);
    assert_eq!(answer(&line([8, 3, 2, 4, 5])), 8);
    assert_eq!(answer(&line([8, 3, 2, 132, 131])), 8);
    // An unused B counts before the target and A.
    assert_eq!(answer(&line([5, 0, 3, 5, 1])), 6);
    // An unused reg counts before the target.
    assert_eq!(answer(&line([4, 1, 2, 0, 0])), 6);
}

#[test]
fn of_two_failures_the_earlier_record_wins() {
    let two = |first: [u8; 5], second: [u8; 5]| {
        [b"PR\x01\x03\x05TH\x02IN".as_slice(), &first, b"IN", &second].concat()
    };
    assert_eq!(answer(&two([5, 0, 0, 5, 0], [0, 0, 0, 0, 0])), 8);
    assert_eq!(answer(&two([5, 0, 3, 0, 0], [5, 1, 0, 0, 0])), 7);
    // A bad line before a thread of too many lines, and before the end of the input.
    let bad = [b"PR\x02\x03\x05TH\x01IN".as_slice(), &[5, 0, 0, 5, 0]].concat();
    assert_eq!(answer(&[&bad, b"TH\x41".as_slice()].concat()), 8);
    assert_eq!(answer(&bad), 8);
}

#[test]
fn check_9_wants_the_end_after_the_last_record() {
    assert_eq!(answer(b"PR\x01\x01\x02TH\x00TH\x00"), 9);
    assert_eq!(answer(b"PR\x01\x01\x02TH\x00\n"), 9);
}
