//! The two functions of `liborder_read_c.a`, safe to call.

/// As many threads as a program has at most.
pub const THREADS: usize = 8;

/// What `order_read` answers.
#[repr(C)]
#[derive(Debug, Default, PartialEq)]
pub struct Header {
    /// 0, or the number of the first failed check.
    pub number: usize,
    /// T; 0 where the program is refused, as all that follows.
    pub threads: usize,
    /// L, the number of named locations.
    pub locations: usize,
    /// K.
    pub values: usize,
    /// For each thread the byte at which its first line record starts.
    pub starts: [usize; THREADS],
    /// For each thread its number of lines.
    pub counts: [usize; THREADS],
}

/// An operand: kind 0 where the line has none, 1 for a constant, 2 for a register.
#[repr(C)]
#[derive(Debug, Default, PartialEq)]
pub struct Operand {
    pub kind: usize,
    pub number: usize,
}

/// What `order_line` answers: 0 throughout where there is no such line.
#[repr(C)]
#[derive(Debug, Default, PartialEq)]
pub struct Fields {
    pub op: usize,
    pub reg: usize,
    pub target: usize,
    pub a: Operand,
    pub b: Operand,
}

extern "C" {
    fn order_read(program: *const u8, len: usize) -> Header;
    fn order_line(program: *const u8, len: usize, thread: usize, line: usize) -> Fields;
}

/// What the library says of a program.
pub fn header(program: &[u8]) -> Header {
    // SAFETY: the library reads `len` bytes from the pointer and keeps nothing.
    unsafe { order_read(program.as_ptr(), program.len()) }
}

/// What the library says of a line; threads and lines count from 0.
pub fn line(program: &[u8], thread: usize, line: usize) -> Fields {
    // SAFETY: as above.
    unsafe { order_line(program.as_ptr(), program.len(), thread, line) }
}
