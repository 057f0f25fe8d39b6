//! Witnesses: document 01, section "Graphs", last paragraph.

use program::Program;

use crate::state::{History, State};
use crate::thread::{Action, Due, Kind, Next};

/// What NR names of a witness.
#[derive(Clone, Copy, Debug, PartialEq, Eq)]
pub struct Witness {
    /// The lowest thread with a witness, counted from 1.
    pub thread: usize,
    /// The kind of its access with that stale value.
    pub kind: Kind,
    /// The location of its access.
    pub location: usize,
    /// "the smallest stale value of w that it may use"
    pub value: u8,
}

/// What is named of a state "reached by SC steps", if it has a witness.
pub fn witness(program: &Program, state: &State) -> Option<Witness> {
    (0..program.threads.len()).find_map(|thread| witness_of(program, state, thread))
}

/// "the thread's next line allows an access, release/acquire allows it with a w other than the newest, and the newest
/// write comes before some event of that thread in SC order".
fn witness_of(program: &Program, state: &State, thread: usize) -> Option<Witness> {
    let Next::Access(due) = state.next(program, thread)? else {
        return None;
    };
    let history = &*state.history;
    let newest = history.graph.newest(due.location);
    if !history.before_in_sc_order(&history.events_of(thread)).contains(newest) {
        return None;
    }
    let stale = history.choices(thread, &due).into_iter().filter(|&(w, _)| w != newest);
    let named = stale.map(|(w, action)| Witness {
        thread: thread + 1,
        kind: action.kind(),
        location: due.location,
        value: history.graph.written(w),
    });
    named.min_by_key(|witness| witness.value)
}

impl State {
    /// The writes that a release/acquire step of a thread, counted from 0, may pick, in modification order; none where
    /// it makes no access.
    pub fn ra_choices(&self, program: &Program, thread: usize) -> Vec<usize> {
        match self.next(program, thread) {
            Some(Next::Access(due)) => {
                self.history.choices(thread, &due).into_iter().map(|(w, _)| w).collect()
            }
            _ => Vec::new(),
        }
    }

    /// The state after the release/acquire step of a thread, counted from 0, that picks the write w; nothing where w is
    /// no write to the location of the access, or may not be picked.
    pub fn ra_step(&self, program: &Program, thread: usize, w: usize) -> Option<State> {
        let Next::Access(due) = self.next(program, thread)? else {
            return None;
        };
        self.history.choices(thread, &due).iter().find(|(choice, _)| *choice == w)?;
        let mut after = self.clone();
        after.take_access(thread, &due, w)?;
        Some(after)
    }
}

impl History {
    /// The writes that the access may pick, in modification order, each with what the access then is. "It may pick w
    /// when no later write to the location is an event of the thread or happens before one, and, for writes and
    /// read-modify-writes, when w isn't directly followed by a read-modify-write."
    fn choices(&self, thread: usize, due: &Due) -> Vec<(usize, Action)> {
        let own = self.events_of(thread);
        let hidden = self.happening_before(&own).or(&own);
        let order = self.graph.order(due.location);
        // The last of the writes that no choice may be older than.
        let first = order.iter().rposition(|&write| hidden.contains(write)).unwrap_or(0);
        let choice = |place: usize| {
            let action = due.action(self.graph.written(order[place]))?;
            let follows = self.graph.update_follows(self.graph.later(due.location, place));
            (action == Action::Read || !follows).then_some((order[place], action))
        };
        (first..order.len()).filter_map(choice).collect()
    }
}
