//! The programs that checkers are compared on reach what such a comparison is for.
#![forbid(unsafe_code)]

use std::collections::BTreeMap;

use program::{Line, Operand, Program};
use random::{program, Numbers, Shape};
use second::{Ending, Kind, Place, Search, ThreadPart};

/// How often each thing was met.
#[derive(Default)]
struct Met(BTreeMap<&'static str, usize>);

impl Met {
    fn note(&mut self, what: &'static str) {
        *self.0.entry(what).or_default() += 1;
    }

    fn note_if(&mut self, holds: bool, what: &'static str) {
        if holds {
            self.note(what);
        }
    }

    /// Notes how the search ended, and each step that led to a new situation.
    fn note_search(&mut self, program: &Program, search: &Search) {
        self.note_fences(program, search);
        self.note(match search.ending {
            Ending::Whole => "RB",
            Ending::Full => "FU",
            Ending::Witness(witness) => match witness.kind {
                Kind::Read => "NR by R",
                Kind::Write => "NR by W",
                Kind::Update => "NR by M",
            },
        });
        for place in search.places.iter().filter(|place| place.from != 0) {
            let before = &search.places[place.from - 1].situation;
            let thread = &before.threads[place.by - 1];
            let now = |location: u8| before.locations[usize::from(location)].value;
            let next = place.situation.threads[place.by - 1].line;
            self.note_step(thread, next, line_to(program, search, place), now);
        }
    }

    /// Notes whether there are fences, and whether the search takes one.
    fn note_fences(&mut self, program: &Program, search: &Search) {
        let fences = usize::from(program.locations);
        let is_taken = search.places.iter().any(|place| place.access.is_some_and(|it| it.location == fences));
        let what = match search.ending {
            _ if !program.has_fence() => "no fence",
            Ending::Whole if !is_taken => "RB with a fence that is never reached",
            Ending::Whole => "RB with a fence",
            Ending::Full => "FU with a fence",
            Ending::Witness(witness) => {
                assert!(witness.location < fences);
                "NR with a fence"
            }
        };
        self.note(what);
    }

    /// Notes what the steps of a trace show.
    fn note_trace(&mut self, program: &Program, search: &Search) {
        let before = |place: &&Place| search.places.get(place.from.checked_sub(1)?);
        let way = std::iter::successors(search.places.last(), before);
        for place in way.filter(|place| place.from != 0) {
            self.note_if(line_to(program, search, place) == Line::Fence, "a fence in a trace");
            self.note(match place.access.map(|access| access.kind) {
                None => "L in a trace",
                Some(Kind::Read) => "R in a trace",
                Some(Kind::Write) => "W in a trace",
                Some(Kind::Update) => "M in a trace",
            });
            self.note_line_of_trace(line_to(program, search, place), place, program.values);
        }
    }

    fn note_line_of_trace(&mut self, line: Line, place: &Place, values: u8) {
        let is = |reg, operand| operand == Operand::Register(reg);
        let Some(access) = place.access else { return };
        match line {
            Line::Cas { reg, a, b, .. } => {
                self.note_if(access.kind == Kind::Read, "a CAS that fails in a trace");
                self.note_if(is(reg, a) || is(reg, b), "a CAS with its own register in a trace");
            }
            Line::Fadd { reg, a, .. } => {
                // The register has the old value, and the sum is below it only where it wraps.
                let old = place.situation.threads[place.by - 1].registers[usize::from(reg)];
                assert!(access.value < values);
                self.note_if(access.value < old, "a sum that wraps in a trace");
                self.note_if(is(reg, a), "a FADD of its own register in a trace");
            }
            _ => {}
        }
    }

    fn note_step(&mut self, thread: &ThreadPart, next: u8, line: Line, now: impl Fn(u8) -> u8) {
        let value = |operand| match operand {
            Operand::Constant(value) => value,
            Operand::Register(reg) => thread.registers[usize::from(reg)],
        };
        self.note_if(next <= thread.line, "a jump back");
        match line {
            Line::Sum { .. } => self.note("op 1"),
            Line::Equal { .. } => self.note("op 2"),
            Line::Less { .. } => self.note("op 3"),
            Line::Jump { .. } => self.note("op 4"),
            Line::Write { location, a } => {
                self.note("op 5");
                self.note_if(value(a) == now(location), "a write of the value that is there");
                self.note_if(matches!(a, Operand::Register(_)) && value(a) != 0, "a register written");
            }
            Line::Read { .. } => self.note("op 6"),
            Line::Fadd { a, .. } => {
                self.note("op 7");
                self.note_if(value(a) == 0, "a FADD of 0");
            }
            Line::Cas { location, a, .. } => {
                self.note("op 8");
                self.note(if value(a) == now(location) { "a CAS that succeeds" } else { "a CAS that fails" });
            }
            Line::Wait { .. } => self.note("op 9"),
            Line::Bcas { .. } => self.note("op 10"),
            Line::Fence => self.note("op 11"),
        }
    }

    #[track_caller]
    fn at_least(&self, count: usize, what: &[&str]) {
        for what in what {
            let met = self.0.get(what).copied().unwrap_or(0);
            assert!(met >= count, "{what}: only {met} times, of {:?}", self.0);
        }
    }
}

/// The line whose step led to a place.
fn line_to(program: &Program, search: &Search, place: &Place) -> Line {
    let before = &search.places[place.from - 1].situation;
    program.threads[place.by - 1][usize::from(before.threads[place.by - 1].line)]
}

/// So many programs of a seed, each searched in at most 200 places.
fn searched(
    seed: u64,
    count: usize,
    shape: impl Fn(&mut Numbers) -> Shape,
) -> impl Iterator<Item = (Program, Search)> {
    let mut numbers = Numbers::new(seed);
    (0..count).map(move |_| {
        let shape = shape(&mut numbers);
        let program = program(&mut numbers, &shape);
        let search = Search::new(&program, 200);
        (program, search)
    })
}

/// What is met in 1,000 programs.
fn met(seed: u64, shape: impl Fn(&mut Numbers) -> Shape) -> Met {
    let mut met = Met::default();
    for (program, search) in searched(seed, 1_000, shape) {
        met.note_search(&program, &search);
        met.note_if((2..=4).contains(&program.threads.len()), "two to four threads");
    }
    met
}

const OPS: [&str; 11] =
    ["op 1", "op 2", "op 3", "op 4", "op 5", "op 6", "op 7", "op 8", "op 9", "op 10", "op 11"];

const STEPS: [&str; 6] = [
    "a jump back",
    "a write of the value that is there",
    "a register written",
    "a FADD of 0",
    "a CAS that succeeds",
    "a CAS that fails",
];

#[test]
fn mixed_programs_meet_everything() {
    let met = met(6, Shape::mixed);
    met.at_least(500, &["two to four threads"]);
    met.at_least(100, &OPS);
    met.at_least(100, &STEPS);
    met.at_least(5, &["RB", "FU", "NR by R", "NR by W", "NR by M"]);
    met.at_least(50, &["no fence", "RB with a fence", "FU with a fence"]);
    met.at_least(5, &["NR with a fence", "RB with a fence that is never reached"]);
}

#[test]
fn fenced_programs_meet_fences_that_are_taken_and_others() {
    let met = met(8, |_| Shape::fenced());
    met.at_least(500, &["op 5", "op 6", "op 7", "op 11"]);
    met.at_least(50, &["RB with a fence", "FU with a fence", "NR with a fence"]);
    met.at_least(5, &["RB with a fence that is never reached", "no fence", "NR by R", "NR by W"]);
}

#[test]
fn litmus_programs_are_often_not_robust() {
    let met = met(5, |_| Shape::litmus());
    met.at_least(100, &["op 5", "op 6", "op 7", "op 8", "a CAS that succeeds", "a CAS that fails"]);
    met.at_least(10, &["RB", "FU", "NR by R", "NR by W", "NR by M"]);
}

#[test]
fn racing_programs_meet_everything() {
    let met = met(1, |_| Shape::racing());
    met.at_least(100, &OPS);
    met.at_least(100, &STEPS);
    met.at_least(5, &["RB", "FU", "NR by R", "NR by W", "NR by M"]);
}

#[test]
fn looping_programs_jump_back_often() {
    let met = met(2, |_| Shape::looping());
    met.at_least(100, &OPS);
    met.at_least(500, &["a jump back", "a CAS that fails"]);
    met.at_least(5, &["RB", "FU", "NR by R"]);
}

#[test]
fn wide_programs_get_every_verdict() {
    let met = met(3, |_| Shape::wide());
    met.at_least(100, &STEPS);
    met.at_least(5, &["RB", "FU", "NR by R", "NR by W"]);
}

#[test]
fn crowded_programs_get_every_verdict() {
    let met = met(4, |_| Shape::crowded());
    met.at_least(100, &["op 5", "op 6", "op 7", "op 8", "op 9", "op 10", "a CAS that fails"]);
    met.at_least(5, &["RB", "FU", "NR by R"]);
}

#[test]
fn traces_of_winding_programs_show_everything() {
    let mut met = Met::default();
    for (program, search) in searched(7, 2_000, |_| Shape::winding()) {
        if let Ending::Witness(_) = search.ending {
            met.note_trace(&program, &search);
        }
    }
    met.at_least(100, &["L in a trace", "R in a trace", "W in a trace", "M in a trace"]);
    met.at_least(100, &["a CAS that fails in a trace"]);
    met.at_least(20, &["a CAS with its own register in a trace", "a FADD of its own register in a trace"]);
    met.at_least(20, &["a sum that wraps in a trace", "a fence in a trace"]);
}
