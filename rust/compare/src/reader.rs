//! The reader, `liborder_read_c.a`, and how it is compared with the second one.

mod expected;
#[allow(unsafe_code)] // It calls C.
mod library;

use program::read;

/// What the proved reader says of program bytes: T, L and K, or the number of the first failed check.
pub fn verdict(bytes: &[u8]) -> Result<[usize; 3], usize> {
    let header = library::header(bytes);
    match header.number {
        0 => Ok([header.threads, header.locations, header.values]),
        number => Err(number),
    }
}

/// Where the library answers otherwise than the second program, if it does: on the header, on any line, or on a line
/// that is not there.
pub fn difference(bytes: &[u8]) -> Option<String> {
    let program = read(bytes);
    let (found, expected) = (library::header(bytes), expected::header(&program));
    if found != expected {
        return Some(format!("header: expected {expected:?}, found {found:?}"));
    }
    let threads = program.as_ref().map_or(&[][..], |program| &program.threads);
    let lines = threads
        .iter()
        .enumerate()
        .flat_map(|(thread, lines)| (0..=lines.len()).map(move |line| (thread, line)));
    // Of a refused program no line is there, not even those before the fault.
    let first = [(0, 0), (0, 1), (1, 0), (1, 1)];
    let past = [(threads.len(), 0), (0, usize::MAX), (usize::MAX, 0), (usize::MAX, usize::MAX)];
    lines.chain(first).chain(past).find_map(|(thread, line)| {
        let found = library::line(bytes, thread, line);
        let expected = expected::line(&program, thread, line);
        let what = || format!("thread {thread}, line {line}: expected {expected:?}, found {found:?}");
        (found != expected).then(what)
    })
}
