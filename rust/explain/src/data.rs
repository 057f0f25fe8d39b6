//! An explanation as data for other programs.

use answer::Kind;

use crate::change::Change;
use crate::edge::{Edge, Relation};
use crate::explanation::Explanation;
use crate::json::Json;
use crate::trial::{Trial, Verdict};

/// The number of this form. Members may be added under it; one that goes or changes its meaning gets another.
const FORMAT: usize = 2;

impl Explanation {
    /// The explanation as an object. Threads, steps and lines of the text count from 1, the ids of events from 0; what
    /// an entry does not have is `null`.
    ///
    /// - `format`: 2.
    /// - `verdict`: `"not_robust"`.
    /// - `disassembled`: whether the model came as bytes, so that lines are those of its disassembly.
    /// - `locations`: the names of the locations, last `"fence"` for that of the fences, where the model has some.
    /// - `steps`: the run, the stale access last. Each has `step`, `thread`, `line`, `statement`, and `event`, the id
    ///   of its event, `null` for a line that makes no access.
    /// - `events`: the graph, first the starting writes, then the events of the steps. Each has `id`; `step`, `thread`
    ///   and `line`, `null` for a starting write; `kind`, which is `"read"`, `"write"` or `"update"`, a
    ///   read-modify-write and so a fence; `location`, its name; `read` and `written`, values; `reads_from`, the id of a
    ///   write.
    /// - `modification_orders`: for each location, as in `locations`, the ids of its writes, the newest last.
    /// - `stale`: `event`, the id of the stale access, `picked`, that of the write which it uses, and `newest`, that
    ///   of the newest write before it.
    /// - `cycle`: the edges from the stale access back to it. Each has `from` and `to`, ids, and `relation`: `"po"` is
    ///   program order, `"rf"` reads from, `"mo"` modification order, `"fr"` from-read.
    /// - `help`: `fences` and `updates`, the trials of changes on the cycle; `enough`, the trial of a small set of
    ///   fences that makes the model robust, or else of the last set that was considered; `checks`, how often the
    ///   checker was asked.
    ///
    /// A trial has `changes`, which are made together, and `verdict`: `"robust"`, `"not_robust"`, `"undecided"` (the
    /// table of the quick check was full), or, where the checker was not asked, `"no_room"` (the limits of a model),
    /// `"no_line"` (the language has none) or `"untried"` (enough others were). A change has `change` and `thread`. A
    /// `"fence"` has `after_line`, where it goes: directly after that line; and `before_line`, which is only the later
    /// access that it is meant for. An `"update"`, a read-modify-write in place of an access, has `line`. Threads that
    /// share lines of the text are changed together.
    pub fn json(&self) -> Json {
        let execution = &self.execution;
        let ids = |order: &Vec<usize>| Json::list(order.iter().copied(), Json::from);
        Json::Object(vec![
            ("format", FORMAT.into()),
            ("verdict", "not_robust".into()),
            ("disassembled", Json::Bool(self.is_disassembly)),
            ("locations", Json::list(self.source.names(), Json::from)),
            ("steps", Json::list(0..execution.steps.len(), |place| self.step_data(place))),
            ("events", Json::list(0..execution.events.len(), |id| self.event_data(id))),
            ("modification_orders", Json::list(&execution.orders, ids)),
            ("stale", self.stale_data()),
            ("cycle", Json::list(&self.cycle, |&edge| edge_data(edge))),
            ("help", self.help_data()),
        ])
    }

    fn step_data(&self, place: usize) -> Json {
        let step = self.execution.steps[place];
        let statement = &self.source.statements[step.thread][step.line];
        Json::Object(vec![
            ("step", (place + 1).into()),
            ("thread", (step.thread + 1).into()),
            ("line", statement.line.into()),
            ("statement", statement.text.as_str().into()),
            ("event", step.event.into()),
        ])
    }

    fn event_data(&self, id: usize) -> Json {
        let event = &self.execution.events[id];
        let step = self.execution.step_of(id);
        Json::Object(vec![
            ("id", id.into()),
            ("step", event.step.map(|step| step + 1).into()),
            ("thread", event.thread.map(|thread| thread + 1).into()),
            ("line", step.map(|step| self.text_line(step.thread, step.line)).into()),
            ("kind", kind(event.kind).into()),
            ("location", self.location(id).into()),
            ("read", event.read.into()),
            ("written", event.written.into()),
            ("reads_from", event.source.into()),
        ])
    }

    fn stale_data(&self) -> Json {
        let execution = &self.execution;
        Json::Object(vec![
            ("event", execution.stale().into()),
            ("picked", execution.picked.into()),
            ("newest", execution.newest.into()),
        ])
    }

    fn help_data(&self) -> Json {
        let trials = |trials: &[Trial]| Json::list(trials, |trial| self.trial_data(trial));
        Json::Object(vec![
            ("fences", trials(&self.help.fences)),
            ("updates", trials(&self.help.updates)),
            ("enough", self.trial_data(&self.help.enough)),
            ("checks", self.help.checks.into()),
        ])
    }

    fn trial_data(&self, trial: &Trial) -> Json {
        Json::Object(vec![
            ("changes", Json::list(&trial.changes, |&change| self.change_data(change))),
            ("verdict", verdict(trial.verdict).into()),
        ])
    }

    fn change_data(&self, change: Change) -> Json {
        Json::Object(match change {
            Change::Fence { thread, after, before } => vec![
                ("change", "fence".into()),
                ("thread", (thread + 1).into()),
                ("after_line", self.text_line(thread, after).into()),
                ("before_line", self.text_line(thread, before).into()),
            ],
            Change::Update { thread, line } => vec![
                ("change", "update".into()),
                ("thread", (thread + 1).into()),
                ("line", self.text_line(thread, line).into()),
            ],
        })
    }
}

fn edge_data(Edge { from, to, relation }: Edge) -> Json {
    let relation = match relation {
        Relation::ProgramOrder => "po",
        Relation::ReadsFrom => "rf",
        Relation::ModificationOrder => "mo",
        Relation::FromRead => "fr",
    };
    Json::Object(vec![("from", from.into()), ("to", to.into()), ("relation", relation.into())])
}

fn kind(kind: Kind) -> &'static str {
    match kind {
        Kind::Read => "read",
        Kind::Write => "write",
        Kind::Update => "update",
    }
}

fn verdict(verdict: Verdict) -> &'static str {
    match verdict {
        Verdict::Robust => "robust",
        Verdict::NotRobust => "not_robust",
        Verdict::Undecided => "undecided",
        Verdict::NoRoom => "no_room",
        Verdict::NoLine => "no_line",
        Verdict::Untried => "untried",
    }
}
