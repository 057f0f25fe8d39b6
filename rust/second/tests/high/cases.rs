//! Programs of sixteen locations whose witness needs bits 8 to 15 of sets of locations, with reports worked out by
//! hand. The tests of each checker take this file.

use program::Operand::Constant;
use program::{encode, Line, Program};

/// A program with the lines that are printed of it in a large table.
pub struct Case {
    pub name: &'static str,
    pub bytes: Vec<u8>,
    pub report: &'static str,
}

fn case(name: &'static str, threads: Vec<Vec<Line>>, report: &'static str) -> Case {
    Case { name, bytes: encode(&Program { threads, locations: 16, values: 3 }), report }
}

fn write(location: u8, value: u8) -> Line {
    Line::Write { location, a: Constant(value) }
}

fn read(location: u8) -> Line {
    Line::Read { reg: 0, location }
}

fn update(location: u8) -> Line {
    Line::Fadd { reg: 0, location, a: Constant(0) }
}

/// x := 1; read y ‖ y := 1; read x, with these lines for reads.
fn store_buffering(x: u8, y: u8, read: fn(u8) -> Line) -> Vec<Vec<Line>> {
    vec![vec![write(x, 1), read(y)], vec![write(y, 1), read(x)]]
}

/// All of them.
///
/// In store buffering x comes into the set of the accesses to y when thread 1 reads y, and from there into that of
/// thread 2, which then may read the 0 of x. A write in place of the read brings it there too, and so do updates.
pub fn all() -> Vec<Case> {
    let mut last_two = vec![vec![]; 6];
    last_two.extend(store_buffering(9, 15, read));
    vec![
        case(
            "SB on 9 and 15",
            store_buffering(9, 15, read),
            "NR 7 3 2 R 9 0\nST 1 W 9 1\nST 1 R 15 0\nST 2 W 15 1\n",
        ),
        case(
            "SB on 15 and 9",
            store_buffering(15, 9, read),
            "NR 7 3 2 R 15 0\nST 1 W 15 1\nST 1 R 9 0\nST 2 W 9 1\n",
        ),
        case(
            "SB of updates on 8 and 14",
            store_buffering(8, 14, update),
            "NR 7 3 2 M 8 0\nST 1 W 8 1\nST 1 M 14 0\nST 2 W 14 1\n",
        ),
        case("SB of threads 7 and 8", last_two, "NR 7 3 8 R 9 0\nST 7 W 9 1\nST 7 R 15 0\nST 8 W 15 1\n"),
        // Store buffering with a write in place of the first read.
        case(
            "R on 10 and 13",
            vec![vec![write(10, 1), write(13, 1)], vec![write(13, 2), read(10)]],
            "NR 7 3 2 R 10 0\nST 1 W 10 1\nST 1 W 13 1\nST 2 W 13 2\n",
        ),
        case(
            "2+2W on 15 and 8",
            vec![vec![write(15, 1), write(8, 2), read(8)], vec![write(8, 1), write(15, 2), read(15)]],
            "NR 8 3 2 W 15 0\nST 1 W 15 1\nST 1 W 8 2\nST 2 W 8 1\n",
        ),
        // Message passing over another thread's from-read: 12 goes from the accesses to 11 into the set of the newest
        // write of 11, and to thread 3 when it reads that. The count is that of the model `iriw`.
        case(
            "IRIW on 12 and 11",
            vec![vec![write(12, 1)], vec![read(12), read(11)], vec![read(11), read(12)], vec![write(11, 1)]],
            "NR 61 5 3 R 12 0\nST 1 W 12 1\nST 2 R 12 1\nST 2 R 11 0\nST 4 W 11 1\nST 3 R 11 1\n",
        ),
    ]
}
