//! From a report to its graph: the steps are taken once more, on graphs.

use answer::{Kind, Report, Step};
use program::Program;
use second::{Action, Graph, State, Witness};

use crate::execution::{Event, Execution, Taken};

impl Execution {
    /// The graph of a report NR and its steps; nothing where the report is another one, or is not of this program.
    ///
    /// Of several writes that the stale access may pick with the reported value it picks the first.
    pub fn of(program: &Program, report: &Report, steps: &[Step]) -> Option<Execution> {
        let (mut taken, state) = run(program, steps)?;
        let witness = second::witness(program, &state)?;
        if !is_named(report, steps.len(), &witness) {
            return None;
        }
        let thread = place_of(program, witness.thread)?;
        let newest = state.graph().newest(witness.location);
        let is_named = |&w: &usize| w != newest && state.graph().written(w) == witness.value;
        let picked = state.ra_choices(program, thread).into_iter().find(is_named)?;
        let after = state.ra_step(program, thread, picked)?;
        taken.push(due(&state, thread));
        let events = events(after.graph(), &taken);
        let orders = (0..program.all_locations().into()).map(|it| after.graph().order(it).to_vec()).collect();
        Some(Execution { steps: taken, events, orders, picked, newest })
    }
}

/// Whether the report is NR after so many steps and names the witness.
fn is_named(report: &Report, taken: usize, witness: &Witness) -> bool {
    let Report::NotRobust { steps, thread, kind, location, value, .. } = *report else {
        return false;
    };
    let named = Witness { thread, kind: second_kind(kind), location, value };
    steps == taken && named == *witness
}

fn second_kind(kind: Kind) -> second::Kind {
    match kind {
        Kind::Read => second::Kind::Read,
        Kind::Write => second::Kind::Write,
        Kind::Update => second::Kind::Update,
    }
}

/// The steps as they are taken, and the state after them; nothing where one of them shows something else.
fn run(program: &Program, steps: &[Step]) -> Option<(Vec<Taken>, State)> {
    let mut state = State::start(program);
    let mut taken = Vec::new();
    for step in steps {
        let thread = place_of(program, step.thread.into())?;
        let due = due(&state, thread);
        let access = state.take_sc_step(program, thread)?;
        taken.push(Taken { event: due.event.filter(|_| access.is_some()), ..due });
        let shown = second::Step { thread: thread + 1, access };
        if shown.bytes() != step.bytes() {
            return None;
        }
    }
    Some((taken, state))
}

/// The place of a thread that is numbered from 1, if the program has it.
fn place_of(program: &Program, thread: usize) -> Option<usize> {
    thread.checked_sub(1).filter(|&place| place < program.threads.len())
}

/// The step that a thread takes next, if it makes an access: its event is the next one of the graph.
fn due(state: &State, thread: usize) -> Taken {
    Taken { thread, line: state.thread(thread).line.into(), event: Some(state.graph().size()) }
}

fn events(graph: &Graph, taken: &[Taken]) -> Vec<Event> {
    let mut steps = vec![None; graph.size()];
    for (place, step) in taken.iter().enumerate() {
        step.event.into_iter().for_each(|event| steps[event] = Some(place));
    }
    let event = |(place, event): (usize, &second::Event)| {
        let (kind, written) = match event.action {
            Action::Read => (Kind::Read, None),
            Action::Write(value) => (Kind::Write, Some(value)),
            Action::Update(value) => (Kind::Update, Some(value)),
        };
        Event {
            step: steps[place],
            thread: event.thread,
            kind,
            location: event.location,
            read: event.source.map(|write| graph.written(write)),
            written,
            source: event.source,
        }
    };
    graph.events().map(event).collect()
}
