//! Changes of a program that add order: fences, and read-modify-writes in place of reads.

use std::collections::BTreeSet;

use program::limits::{LINES, LOCATIONS};
use program::{Line, Operand, Program};

/// A change of a program. Threads and their lines are counted from 0.
#[derive(Clone, Copy, Debug, PartialEq, Eq, PartialOrd, Ord)]
pub enum Change {
    /// A fence directly after a line.
    Fence {
        /// The thread.
        thread: usize,
        /// The line that it comes after.
        after: usize,
        /// The line of the later access that it is to keep apart from that.
        before: usize,
    },
    /// A read-modify-write in place of an access.
    Update {
        /// The thread.
        thread: usize,
        /// The line of the access.
        line: usize,
    },
}

/// A program with changes made.
#[derive(Clone, Debug, PartialEq, Eq)]
pub struct Changed {
    /// The program.
    pub program: Program,
    /// For each line of each thread the one that it was before; none for a fence.
    pub lines: Vec<Vec<Option<usize>>>,
}

/// The program with the changes; nothing where its limits leave no room, a line has no counterpart that is a
/// read-modify-write, or there is no such line.
pub fn changed(program: &Program, changes: &[Change]) -> Option<Changed> {
    let mut threads = program.threads.clone();
    let mut fences = vec![BTreeSet::new(); threads.len()];
    for &change in changes {
        match change {
            Change::Fence { thread, after, .. } => {
                program.threads.get(thread)?.get(after)?;
                fences[thread].insert(after);
            }
            Change::Update { thread, line } => {
                let line = threads.get_mut(thread)?.get_mut(line)?;
                *line = counterpart(line)?;
            }
        }
    }
    let fenced = threads.iter().zip(&fences).map(|(lines, after)| fenced(lines, after));
    let (threads, lines) = fenced.unzip();
    let program = Program { threads, ..*program };
    fits(&program).then_some(Changed { program, lines })
}

/// Whether the lines keep to the limits of a thread, and the locations, with that of the fences, to those of a program.
fn fits(program: &Program) -> bool {
    LOCATIONS.contains(&program.all_locations())
        && program.threads.iter().all(|lines| lines.len() <= usize::from(*LINES.end()))
}

/// The named locations that stand in for that of the fences: nothing but `FADD(f, 0)` and the like uses them, so that
/// they are never anything but 0.
pub fn fence_locations(program: &Program) -> Vec<u8> {
    let is_used = |location: &u8| accesses(program, *location).next().is_some();
    let is_own = |location: &u8| accesses(program, *location).all(is_fence);
    (0..program.locations).filter(is_used).filter(is_own).collect()
}

/// The lines that access a location.
fn accesses(program: &Program, location: u8) -> impl Iterator<Item = &Line> {
    program.threads.iter().flatten().filter(move |line| line.location() == Some(location))
}

/// Whether the line is a fence if its location is never anything but 0.
fn is_fence(line: &Line) -> bool {
    const ZERO: Operand = Operand::Constant(0);
    matches!(
        line,
        Line::Fadd { a: ZERO, .. } | Line::Bcas { a: ZERO, b: ZERO, .. } | Line::Cas { a: ZERO, b: ZERO, .. }
    )
}

/// The read-modify-write that does what the line does and writes the value that it found; nothing where the language
/// has none.
pub fn counterpart(line: &Line) -> Option<Line> {
    match *line {
        Line::Read { reg, location } => Some(Line::Fadd { reg, location, a: Operand::Constant(0) }),
        Line::Wait { location, a } => Some(Line::Bcas { location, a, b: a }),
        _ => None,
    }
}

/// The lines with a fence after each of these, and what each was before.
fn fenced(lines: &[Line], after: &BTreeSet<usize>) -> (Vec<Line>, Vec<Option<usize>>) {
    let mut found = Vec::new();
    for (place, &line) in lines.iter().enumerate() {
        found.push((moved(line, after), Some(place)));
        if after.contains(&place) {
            found.push((Line::Fence, None));
        }
    }
    found.into_iter().unzip()
}

/// A jump goes to the line that it went to before, and never to a fence in front of it.
fn moved(line: Line, after: &BTreeSet<usize>) -> Line {
    match line {
        Line::Jump { target, a } => {
            let fences = after.range(..usize::from(target)).count();
            // A target past the limits is refused with the lines that it comes after.
            Line::Jump { target: target.saturating_add(fences as u8), a }
        }
        other => other,
    }
}
