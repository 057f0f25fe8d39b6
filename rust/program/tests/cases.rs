//! The cases of the documents that the reader decides, byte by byte.
#![forbid(unsafe_code)]

use program::Operand::{Constant, Register};
use program::{read, Line, Program};

/// SB: x := 1; read y ‖ y := 1; read x; K = 2.
const SB: &[u8] = b"PR\x02\x02\x02TH\x02IN\x05\x00\x00\x01\x00IN\x06\x00\x01\x00\x00\
      TH\x02IN\x05\x00\x01\x01\x00IN\x06\x00\x00\x00\x00";

/// One thread of one line, which jumps to `target`.
fn jump_to(target: u8) -> Vec<u8> {
    [b"PR\x01\x01\x02TH\x01IN\x04\x00".as_slice(), &[target], b"\x01\x00"].concat()
}

#[test]
fn store_buffering_is_read_line_by_line() {
    let thread = |mine, other| {
        vec![Line::Write { location: mine, a: Constant(1) }, Line::Read { reg: 0, location: other }]
    };
    let expected = Program { threads: vec![thread(0, 1), thread(1, 0)], locations: 2, values: 2 };
    assert_eq!(read(SB), Ok(expected));
}

#[test]
fn a_thread_without_lines_is_accepted() {
    let expected = Program { threads: vec![vec![]], locations: 1, values: 2 };
    assert_eq!(read(b"PR\x01\x01\x02TH\x00"), Ok(expected));
}

#[test]
fn of_sixteen_locations_the_last_is_15() {
    let bytes = |target| [b"PR\x01\x10\x02TH\x01IN\x05\x00".as_slice(), &[target], b"\x01\x00"].concat();
    let line = Line::Write { location: 15, a: Constant(1) };
    assert_eq!(read(&bytes(15)), Ok(Program { threads: vec![vec![line]], locations: 16, values: 2 }));
    assert_eq!(read(&bytes(16)), Err(7));
}

#[test]
fn the_empty_input_is_1() {
    assert_eq!(read(b""), Err(1));
}

#[test]
fn one_value_is_2() {
    assert_eq!(read(b"PR\x01\x01\x01TH\x00"), Err(2));
}

#[test]
fn a_byte_after_the_last_record_is_9() {
    assert_eq!(read(&[SB, b"\x00"].concat()), Err(9));
}

#[test]
fn a_jump_reaches_line_n_and_not_further() {
    let line = Line::Jump { target: 1, a: Constant(1) };
    assert_eq!(read(&jump_to(1)), Ok(Program { threads: vec![vec![line]], locations: 1, values: 2 }));
    assert_eq!(read(&jump_to(2)), Err(7));
}

#[test]
fn every_op_is_read_with_its_fields() {
    let (a, b) = (Register(3), Constant(4));
    let expected = [
        ([1, 2, 0, 131, 4], Line::Sum { reg: 2, a, b }),
        ([2, 2, 0, 131, 4], Line::Equal { reg: 2, a, b }),
        ([3, 2, 0, 131, 4], Line::Less { reg: 2, a, b }),
        ([4, 0, 1, 131, 0], Line::Jump { target: 1, a }),
        ([5, 0, 1, 131, 0], Line::Write { location: 1, a }),
        ([6, 2, 1, 0, 0], Line::Read { reg: 2, location: 1 }),
        ([7, 2, 1, 131, 0], Line::Fadd { reg: 2, location: 1, a }),
        ([8, 2, 1, 131, 4], Line::Cas { reg: 2, location: 1, a, b }),
        ([9, 0, 1, 131, 0], Line::Wait { location: 1, a }),
        ([10, 0, 1, 131, 4], Line::Bcas { location: 1, a, b }),
        ([11, 0, 0, 0, 0], Line::Fence),
    ];
    for (fields, line) in expected {
        let bytes = [b"PR\x01\x02\x05TH\x01IN".as_slice(), &fields].concat();
        assert_eq!(read(&bytes), Ok(Program { threads: vec![vec![line]], locations: 2, values: 5 }));
    }
}
