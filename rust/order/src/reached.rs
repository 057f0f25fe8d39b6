//! Which lines the runs of a robust model reach: of the others RB says nothing.

use answer::Report;
use models::Source;
use program::limits::REGISTERS;
use program::{Line, Operand, Program};

/// The bytes of a place before its situation, which starts with the line of each thread, the registers of each thread
/// and the value of each location.
const HEAD: usize = 9;

/// What the situations of a model have its threads do. For each thread there is an entry for each of its lines.
#[derive(Debug, PartialEq, Eq)]
pub struct Reached {
    /// Whether some situation has the thread there.
    lines: Vec<Vec<bool>>,
    /// Whether it can then go on in one of them: all lines let it, but for those that wait.
    passed: Vec<Vec<bool>>,
}

/// What is reached, by the table that a search left; nothing where it does not have all situations.
pub fn reached(program: &Program, report: &Report, table: &[u8]) -> Option<Reached> {
    let Report::Robust { count } = *report else {
        return None;
    };
    let threads = &program.threads;
    let none: Vec<Vec<bool>> = threads.iter().map(|lines| vec![false; lines.len()]).collect();
    let mut reached = Reached { lines: none.clone(), passed: none };
    for place in table.chunks_exact(program.place_size()).take(count) {
        for (thread, lines) in threads.iter().enumerate() {
            let at = usize::from(place[HEAD + thread]);
            // A thread at its end has no line.
            if let Some(line) = lines.get(at) {
                reached.lines[thread][at] = true;
                reached.passed[thread][at] |= goes_on(line, &place[HEAD..], thread, threads.len());
            }
        }
    }
    Some(reached)
}

/// Whether a thread can take the line in a situation.
fn goes_on(line: &Line, situation: &[u8], thread: usize, threads: usize) -> bool {
    let (Line::Wait { location, a } | Line::Bcas { location, a, .. }) = *line else {
        return true;
    };
    let registers = usize::from(REGISTERS);
    let wanted = match a {
        Operand::Constant(value) => value,
        Operand::Register(reg) => situation[threads + registers * thread + usize::from(reg)],
    };
    situation[threads + registers * threads + usize::from(location)] == wanted
}

/// The lines of the text that no run reaches, in whichever thread, and those at which a thread waits for ever.
pub fn unreached(source: &Source, reached: &Reached) -> (Vec<usize>, Vec<usize>) {
    let Reached { lines, passed } = reached;
    let mut never = lines_where(source, |thread, line| !lines[thread][line]);
    let some = lines_where(source, |thread, line| lines[thread][line]);
    never.retain(|line| !some.contains(line));
    (never, lines_where(source, |thread, line| lines[thread][line] && !passed[thread][line]))
}

/// The lines of the text for which the question holds of a thread and its line, in their order.
pub fn lines_where(source: &Source, question: impl Fn(usize, usize) -> bool) -> Vec<usize> {
    let mut found = Vec::new();
    for (thread, statements) in source.statements.iter().enumerate() {
        let lines = statements.iter().enumerate().filter(|&(line, _)| question(thread, line));
        found.extend(lines.map(|(_, statement)| statement.line));
    }
    found.sort_unstable();
    found.dedup();
    found
}

#[cfg(test)]
mod tests {
    use std::collections::HashSet;

    use super::{reached, unreached, Reached, Report, Source};
    use order_check::{check_with_table, Lent};
    use program::encode;
    use random::{Numbers, Shape};
    use second::{Ending, Search, Situation, State};

    #[test]
    fn the_lines_of_all_situations_are_reached_and_no_others() {
        let mut numbers = Numbers::new(12);
        let mut robust = 0;
        while robust < 200 {
            let program = random::program(&mut numbers, &Shape::small());
            let Search { places, ending } = Search::new(&program, 500);
            let bytes = encode(&program);
            let (checked, table) = check_with_table(&bytes, Lent::with_table(&bytes, 500_000)).unwrap();
            let found = reached(&program, &checked.report, &table);
            if ending != Ending::Whole {
                assert!(found.is_none() || places.len() == 500);
                continue;
            }
            let none: Vec<Vec<bool>> = program.threads.iter().map(|lines| vec![false; lines.len()]).collect();
            let mut expected = Reached { lines: none.clone(), passed: none };
            let mut states = vec![State::start(&program)];
            let mut known = HashSet::new();
            while let Some(state) = states.pop() {
                if !known.insert(Situation::of(&state)) {
                    continue;
                }
                for thread in 0..program.threads.len() {
                    let line = usize::from(state.thread(thread).line);
                    let after = state.sc_step(&program, thread);
                    if line < program.threads[thread].len() {
                        expected.lines[thread][line] = true;
                        expected.passed[thread][line] |= after.is_some();
                    }
                    states.extend(after.map(|(_, after)| after));
                }
            }
            assert_eq!(found, Some(expected));
            robust += 1;
        }
    }

    #[test]
    fn lines_are_those_of_the_text() {
        let text =
            "values 3\nlocations go x\nthread * 2\n  wait(go = 2)\n  x := 1\nthread\n  go := 1\n  goto end\n\
            \x20 x := 2\nend:\nthread\n  BCAS(x, 1 -> 2)\n";
        let source = Source::of_text(text.as_bytes()).unwrap();
        let bytes = encode(&source.program);
        let (checked, table) = check_with_table(&bytes, Lent::with_table(&bytes, 500_000)).unwrap();
        assert!(matches!(checked.report, Report::Robust { .. }));
        let reached = reached(&source.program, &checked.report, &table).unwrap();
        assert_eq!(unreached(&source, &reached), (vec![5, 9], vec![4, 12]));
    }

    #[test]
    fn a_wait_that_a_jump_leads_around_is_one_too() {
        let text =
            "values 2\nlocations x a\nthread\n  r0 := x\n  if r0 goto n\n  wait(a = 1)\nn:\n  x := 1\n\
            thread\n  r1 := 1\n  BCAS(x, r1 -> 0)\nthread\n  x := 1\n";
        let source = Source::of_text(text.as_bytes()).unwrap();
        let bytes = encode(&source.program);
        let (checked, table) = check_with_table(&bytes, Lent::with_table(&bytes, 500_000)).unwrap();
        let reached = reached(&source.program, &checked.report, &table).expect("it is robust");
        assert_eq!(unreached(&source, &reached), (vec![], vec![6]));
    }
}
