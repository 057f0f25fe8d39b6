//! The second checker against the meaning itself: robustness by all release/acquire runs, and the numbering of
//! situations by all schedules, on programs small enough for that.
#![forbid(unsafe_code)]

mod runs;

use models::collection::{self, Verdict};
use program::{read, Line, Operand, Program};
use random::{program, Numbers, Shape};
use second::{Access, Ending, Kind, Search, Situation, State, Step};

/// More than any program here needs.
const PLACES: usize = 100_000;

/// Every op, reads and writes more often than the others.
const MIXED: &[u8] = &[1, 2, 3, 4, 5, 5, 5, 5, 6, 6, 6, 6, 7, 7, 8, 8, 9, 10, 11];

/// Accesses only, none of which blocks: these are the least robust.
const RACES: Shape =
    Shape { threads: 2..=2, locations: 2..=2, values: 2..=3, lines: 3..=5, ops: &[5, 5, 5, 6, 6, 6, 7, 8] };

/// Plain accesses with fences between them.
const FENCES: Shape =
    Shape { threads: 2..=2, locations: 2..=2, values: 2..=3, lines: 3..=5, ops: &[5, 5, 5, 6, 6, 6, 11] };

const THREES: Shape = Shape { threads: 3..=3, locations: 2..=2, values: 2..=3, lines: 2..=3, ops: MIXED };

const TWOS: Shape = Shape { threads: 2..=2, locations: 2..=3, values: 2..=3, lines: 3..=5, ops: MIXED };

/// Tiny programs without loops: every jump goes down.
fn tiny(seed: u64, count: usize, shape: Shape) -> impl Iterator<Item = Program> {
    let mut numbers = Numbers::new(seed);
    (0..count).map(move |_| {
        let mut program = program(&mut numbers, &shape);
        for lines in &mut program.threads {
            for (place, line) in lines.iter_mut().enumerate() {
                if let Line::Jump { target, .. } = line {
                    *target = (*target).max(place as u8 + 1);
                }
            }
        }
        program
    })
}

/// A hundred of each shape, by seeds from this one on.
fn of_each_shape(seed: u64) -> impl Iterator<Item = Program> {
    let shapes = [RACES, THREES, TWOS, FENCES].into_iter().zip(seed..);
    shapes.flat_map(|(shape, seed)| tiny(seed, 100, shape))
}

/// Whether the second checker finds the program robust.
fn found_robust(program: &Program) -> bool {
    match Search::new(program, PLACES).ending {
        Ending::Whole => true,
        Ending::Witness(_) => false,
        Ending::Full => panic!("more than {PLACES} situations"),
    }
}

/// How many of the programs are robust and how many are not, by all runs and by the second checker alike.
fn robust_and_not(programs: impl Iterator<Item = Program>) -> (usize, usize) {
    let (mut robust, mut other) = (0, 0);
    for program in programs {
        let expected = runs::is_robust(&program, usize::MAX);
        assert_eq!(found_robust(&program), expected, "{program:?}");
        *(if expected { &mut robust } else { &mut other }) += 1;
    }
    (robust, other)
}

#[test]
fn robust_is_what_release_acquire_runs_say_without_loops() {
    let programs = tiny(1, 400, RACES).chain(tiny(2, 300, THREES)).chain(tiny(3, 300, TWOS));
    let (robust, other) = robust_and_not(programs);
    assert!(robust >= 400 && other >= 100, "{robust} robust, {other} not");
}

#[test]
fn robust_is_what_release_acquire_runs_say_of_fences() {
    let (robust, other) = robust_and_not(tiny(10, 400, FENCES).filter(Program::has_fence));
    assert!(robust >= 200 && other >= 40, "{robust} robust, {other} not");
}

#[test]
fn a_fence_is_an_update_of_a_location_that_lines_do_not_name() {
    for program in tiny(11, 200, FENCES).filter(Program::has_fence) {
        let mut spelled = program.clone();
        spelled.locations += 1;
        for line in spelled.threads.iter_mut().flatten().filter(|line| **line == Line::Fence) {
            // As FADD of 0 on a location that holds nothing but 0, and no register changes.
            let zero = Operand::Constant(0);
            *line = Line::Bcas { location: program.locations, a: zero, b: zero };
        }
        let [fenced, updated] = [&program, &spelled].map(|program| runs::is_robust(program, usize::MAX));
        assert_eq!(fenced, updated, "{program:?}");
        let [fenced, updated] = [&program, &spelled].map(|program| Search::new(program, PLACES).places);
        assert_eq!(fenced, updated, "{program:?}");
    }
}

#[test]
fn the_models_get_their_verdicts_from_all_runs() {
    // With at most so many accesses, which is all of them where a model has no loop.
    const EVENTS: usize = 8;
    let mut asked = 0;
    for model in collection::load(&collection::directory()).unwrap() {
        let program = read(&model.bytes).unwrap();
        if program.threads.iter().map(Vec::len).sum::<usize>() <= 10 {
            let robust = runs::is_robust(&program, EVENTS);
            assert_eq!(robust, model.expected == Verdict::Robust, "{}", model.name);
            assert_eq!(robust, found_robust(&program), "{}", model.name);
            asked += 1;
        }
    }
    assert!(asked >= 20, "only {asked} models are that small");
}

/// Each situation with the steps of the first schedule that reaches it, found by going through all schedules of at most
/// `length` steps in their order.
fn numbered(program: &Program, length: usize) -> Vec<(Vec<Step>, Situation)> {
    let mut found: Vec<(Vec<Step>, Situation)> = Vec::new();
    let mut runs = vec![(Vec::new(), State::start(program))];
    for _ in 0..=length {
        for (steps, state) in &runs {
            let situation = Situation::of(state);
            if found.iter().all(|(_, known)| *known != situation) {
                found.push((steps.clone(), situation));
            }
        }
        let longer = |(steps, state): &(Vec<Step>, State)| {
            let step = |thread: usize| {
                let (access, after) = state.sc_step(program, thread)?;
                Some(([steps.as_slice(), &[Step { thread: thread + 1, access }]].concat(), after))
            };
            (0..program.threads.len()).filter_map(step).collect::<Vec<_>>()
        };
        runs = runs.iter().flat_map(longer).collect();
    }
    found
}

#[test]
fn situations_are_numbered_by_their_first_schedules() {
    let mut compared = 0;
    for program in of_each_shape(4) {
        let lines: usize = program.threads.iter().map(Vec::len).sum();
        if lines > 8 {
            continue;
        }
        // Without loops no run is longer than the lines are many.
        let expected = numbered(&program, lines);
        let search = Search::new(&program, PLACES);
        assert!(search.places.len() <= expected.len());
        if search.ending == Ending::Whole {
            assert_eq!(search.places.len(), expected.len(), "{program:?}");
        }
        for (place, (steps, situation)) in search.places.iter().zip(&expected) {
            assert_eq!(*place.situation, *situation, "{program:?}");
            let last = steps.last().map_or((0, None), |step| (step.thread, step.access));
            assert_eq!((place.by, place.access), last, "{program:?}");
        }
        let last = search.places.len();
        assert_eq!(search.steps_to(last), expected[last - 1].0);
        compared += 1;
    }
    assert!(compared >= 80, "only {compared} programs are that small");
}

#[test]
fn situations_of_loops_are_numbered_by_their_first_schedules() {
    for name in ["sb-forever", "barrier-loop", "barrier-cas-loop", "counting-loop"] {
        let program = read(&collection::named(name).unwrap().bytes).unwrap();
        let search = Search::new(&program, PLACES);
        let last = search.places.len();
        let expected = numbered(&program, search.steps_to(last).len());
        for (number, (steps, situation)) in expected.iter().take(last).enumerate() {
            assert_eq!(*search.places[number].situation, *situation, "{name}");
            assert_eq!(search.steps_to(number + 1), *steps, "{name}");
        }
        assert!(expected.len() >= last, "{name}");
    }
}

/// What a step shows, as the event that a run gets by it has it: a read has a value read, a write one written, and a
/// read-modify-write both.
fn shown(event: runs::Event) -> Access {
    let (kind, value) = match (event.read, event.written) {
        (Some((value, _)), None) => (Kind::Read, value),
        (None, Some(value)) => (Kind::Write, value),
        (_, value) => (Kind::Update, value.expect("an event reads or writes")),
    };
    Access { kind, location: event.location.into(), value }
}

/// The steps of a schedule are those of the SC run by it, each with the access that it adds to the graph there.
#[track_caller]
fn shows_its_run(program: &Program, steps: &[Step]) {
    let schedule: Vec<usize> = steps.iter().map(|step| step.thread - 1).collect();
    let events = runs::events_along(program, &schedule);
    let accesses: Vec<_> = steps.iter().map(|step| step.access).collect();
    let expected: Vec<_> = events.into_iter().map(|event| event.map(shown)).collect();
    assert_eq!(accesses, expected, "{program:?}");
}

#[test]
fn steps_show_the_accesses_of_their_run() {
    let mut steps = 0;
    for program in of_each_shape(20) {
        let search = Search::new(&program, PLACES);
        for number in 1..=search.places.len() {
            let run = search.steps_to(number);
            shows_its_run(&program, &run);
            steps += run.len();
        }
    }
    assert!(steps >= 50_000, "only {steps} steps");
}

#[test]
fn steps_of_every_model_show_the_accesses_of_their_run() {
    for model in collection::load(&collection::directory()).unwrap() {
        let program = read(&model.bytes).unwrap();
        let search = Search::new(&program, 1_000);
        shows_its_run(&program, &search.steps_to(search.places.len()));
    }
}
