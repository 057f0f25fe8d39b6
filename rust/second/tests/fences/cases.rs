//! Programs with fences, and reports that are due of them in tables of given lengths: document 02, Point 5. The tests
//! of each checker take this file.

use program::Operand::Constant;
use program::{encode, Line, Program};

/// Program bytes with the lines that are printed of them in a table of this length.
pub struct Case {
    pub name: &'static str,
    pub bytes: Vec<u8>,
    pub table: usize,
    pub report: &'static str,
}

fn case(name: &'static str, bytes: Vec<u8>, table: usize, report: &'static str) -> Case {
    Case { name, bytes, table, report }
}

fn write(location: u8, value: u8) -> Line {
    Line::Write { location, a: Constant(value) }
}

fn read(location: u8) -> Line {
    Line::Read { reg: 0, location }
}

/// These lines with fences between them.
fn fenced(lines: &[Line]) -> Vec<Line> {
    let mut all: Vec<Line> = lines.iter().flat_map(|line| [*line, Line::Fence]).collect();
    all.pop();
    all
}

fn program(locations: u8, values: u8, threads: [Vec<Line>; 2]) -> Vec<u8> {
    encode(&Program { threads: threads.into(), locations, values })
}

/// Store buffering with a fence in each thread, or in one of them: x := 1; read y ‖ y := 1; read x.
fn store_buffering(locations: u8, [x, y]: [u8; 2], fences: [bool; 2]) -> Vec<u8> {
    let lines = |fence, lines: [Line; 2]| if fence { fenced(&lines) } else { lines.into() };
    let threads = [lines(fences[0], [write(x, 1), read(y)]), lines(fences[1], [write(y, 1), read(x)])];
    program(locations, 2, threads)
}

/// 2+2W with a fence between the two writes of each thread.
fn two_writes() -> Vec<u8> {
    let thread = |x, y| [fenced(&[write(x, 1), write(y, 2)]), vec![read(y)]].concat();
    program(2, 3, [thread(0, 1), thread(1, 0)])
}

/// One thread of these lines, by their fields, among so many named locations.
fn lines(locations: u8, lines: &[[u8; 5]]) -> Vec<u8> {
    let count = u8::try_from(lines.len()).expect("a few lines");
    let lines = lines.iter().flat_map(|fields| [b"IN".as_slice(), fields].concat());
    [b"PR\x01".as_slice(), &[locations, 2], b"TH", &[count]].concat().into_iter().chain(lines).collect()
}

const FENCE: [u8; 5] = [11, 0, 0, 0, 0];
const TO_THE_END: [u8; 5] = [4, 0, 2, 1, 0];

/// More than enough.
const LARGE: usize = 1_000_000;

/// All of them.
pub fn all() -> Vec<Case> {
    let both = || store_buffering(2, [0, 1], [true; 2]);
    let first = || store_buffering(2, [0, 1], [true, false]);
    let of_first = "NR 11 4 2 R 0 0\nST 1 W 0 1\nST 1 M 2 0\nST 1 R 1 0\nST 2 W 1 1\n";
    vec![
        // A place has 98 bytes, as for three locations.
        case("SB with fences", both(), 26 * 98, "RB 26\n"),
        case("SB with fences, a byte less", both(), 26 * 98 - 1, "FU 25\n"),
        case("SB with a fence in thread 1", first(), LARGE, of_first),
        case("SB with a fence in thread 1, a byte less", first(), 11 * 98 - 1, "FU 10\n"),
        case("2+2W with fences", two_writes(), LARGE, "RB 58\n"),
        // A place has 50 bytes, as for two locations.
        case("a fence alone", lines(1, &[FENCE]), 100, "RB 2\n"),
        case("a fence alone, a byte less", lines(1, &[FENCE]), 99, "FU 1\n"),
        // Also where no run reaches the fence.
        case("a fence passed over", lines(1, &[TO_THE_END, FENCE]), 100, "RB 2\n"),
        case("a fence passed over, a byte less", lines(1, &[TO_THE_END, FENCE]), 99, "FU 1\n"),
        // The fences' location is the last of sixteen.
        case(
            "SB on 9 and 14 with a fence in thread 1",
            store_buffering(15, [9, 14], [true, false]),
            LARGE,
            "NR 11 4 2 R 9 0\nST 1 W 9 1\nST 1 M 15 0\nST 1 R 14 0\nST 2 W 14 1\n",
        ),
        case("a fence beside sixteen locations", lines(16, &[FENCE]), LARGE, "NO 12\n"),
        case("the same with reg 1", lines(16, &[[11, 1, 0, 0, 0]]), LARGE, "NO 12\n"),
        case("the same passed over", lines(16, &[TO_THE_END, FENCE]), LARGE, "NO 12\n"),
        case("op 12 beside sixteen locations", lines(16, &[[12, 0, 0, 0, 0]]), LARGE, "NO 5\n"),
        case("a fence with reg 1", lines(15, &[[11, 1, 0, 0, 0]]), LARGE, "NO 6\n"),
        case("a fence with a target", lines(15, &[[11, 0, 1, 0, 0]]), LARGE, "NO 6\n"),
        case("the fences' location named", lines(15, &[FENCE, [5, 0, 15, 1, 0]]), LARGE, "NO 7\n"),
    ]
}
