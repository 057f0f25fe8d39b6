//! Models with their reports, those of the plain checker.

use std::sync::OnceLock;

use answer::{steps_in, Report, Step};
use explain::{Edge, Execution};
use models::collection::{self, Model};
use models::{disassemble, Source};
use page::{Graph, Page};
use program::{encode, Program};
use random::{Numbers, Shape};

/// A model, the report on it and, of NR, the graph.
pub struct Reported {
    pub name: String,
    pub text: String,
    pub source: Source,
    pub report: Report,
    pub execution: Option<Execution>,
    pub cycle: Vec<Edge>,
}

impl Reported {
    /// The report on a text in a table of a million bytes.
    pub fn on(name: &str, text: &str) -> Reported {
        let source = Source::of_text(text.as_bytes()).unwrap_or_else(|mistake| panic!("{name}:{mistake}"));
        let (mut table, mut trace) = (vec![0; 1_000_000], vec![0; 20_000]);
        let report = plain::check(&encode(&source.program), &mut table, &mut trace);
        let steps = if let Report::NotRobust { steps, .. } = report { steps } else { 0 };
        let steps = steps_in(&trace[..steps * Step::BYTES]).unwrap();
        let execution = Execution::of(&source.program, &report, &steps);
        let cycle = execution.as_ref().map_or_else(Vec::new, |execution| execution.cycle().unwrap());
        Reported { name: name.into(), text: text.into(), source, report, execution, cycle }
    }

    pub fn graph(&self) -> Option<Graph<'_>> {
        self.execution.as_ref().map(|execution| Graph { execution, cycle: &self.cycle })
    }

    /// The starting write of the fences, which has no box.
    pub fn start_of_fences(&self) -> Option<usize> {
        self.source.program.has_fence().then_some(self.source.locations.len())
    }

    /// The events that have a box; none where there is no graph.
    pub fn events_drawn(&self) -> Vec<usize> {
        let events = 0..self.execution.as_ref().map_or(0, |execution| execution.events.len());
        events.filter(|&event| Some(event) != self.start_of_fences()).collect()
    }

    pub fn page<'a>(&'a self, words: &'a str) -> Page<'a> {
        let Reported { name, text, source, report, .. } = self;
        Page { name, text, source, report, graph: self.graph(), words }
    }

    pub fn html(&self, words: &str) -> String {
        self.page(words).html()
    }
}

/// Every model of the repository.
pub fn models() -> Vec<Reported> {
    let reported = |model: Model| {
        let file = format!("{}.order", model.name);
        let text = std::fs::read_to_string(collection::directory().join(&file)).unwrap();
        Reported::on(&file, &text)
    };
    collection::load(&collection::directory()).unwrap().into_iter().map(reported).collect()
}

/// Eight threads that take turns, each with accesses to several locations, and then store buffering.
fn crowd() -> Reported {
    let thread = |number: usize| {
        let own = ["a", "b", "c", "d"][number % 4];
        let other = ["b", "c", "d", "e"][number * 3 % 4];
        let end = match number {
            0 => "  wait(turn = 8)\n  f := 1\n  r3 := g\n",
            7 => "  g := 1\n  r3 := f\n",
            _ => "",
        };
        format!(
            "thread\n  wait(turn = {number})\n  {own} := {number}\n  r0 := FADD(e, 1)\n  r1 := {other}\n  \
             r2 := {own}\n  turn := {}\n{end}",
            number + 1
        )
    };
    let threads: String = (0..8).map(thread).collect();
    Reported::on("crowd.order", &format!("values 16\nlocations turn a b c d e f g\n{threads}"))
}

/// Four threads that take turns and write all of sixteen locations but two, and then store buffering on these.
fn sixteen() -> Reported {
    let names = ["a", "b", "c", "d", "e", "f", "g", "h", "i", "j", "k", "l", "m", "n", "o", "p"];
    let threads = names.chunks(4).enumerate().map(|(number, own)| {
        let begin =
            if number > 0 { format!("  wait({} = 1)\n", names[4 * number - 2]) } else { String::new() };
        let writes: String = own[..3].iter().map(|name| format!("  {name} := 1\n")).collect();
        let end = match number {
            0 => "  wait(o = 1)\n  d := 1\n  r0 := p\n".into(),
            3 => "  p := 1\n  r0 := d\n".into(),
            _ => format!("  {} := 1\n", own[3]),
        };
        format!("thread\n{begin}{writes}  r1 := a\n{end}")
    });
    let threads: String = threads.collect();
    Reported::on("sixteen.order", &format!("values 2\nlocations {}\n{threads}", names.join(" ")))
}

/// Three threads, two of which have a fence on the cycle.
fn fences() -> Reported {
    let threads = "thread\n  x := 1\n  r0 := y\nthread\n  y := 1\n  fence\nthread\n  fence\n  r0 := x\n";
    Reported::on("fences.order", &format!("values 2\nlocations x y\n{threads}"))
}

/// So many random programs that are not robust, of which the longest has some dozen steps.
fn random(count: usize) -> Vec<Reported> {
    let mut numbers = Numbers::new(2019);
    let shapes = [
        Shape::litmus(),
        Shape::winding(),
        Shape::racing(),
        Shape::looping(),
        Shape::wide(),
        Shape::fenced(),
    ];
    let programs = (0..).map(|number| random::program(&mut numbers, &shapes[number % shapes.len()]));
    let reported = |(number, program): (usize, Program)| {
        let text = disassemble(&encode(&program)).unwrap();
        Reported::on(&format!("program {number}"), &text)
    };
    programs.enumerate().map(reported).filter(|reported| reported.execution.is_some()).take(count).collect()
}

/// All that have a graph: the models, random programs, the crowd, sixteen locations and fences.
pub fn with_graph() -> &'static [Reported] {
    static ALL: OnceLock<Vec<Reported>> = OnceLock::new();
    ALL.get_or_init(|| {
        let models = models().into_iter().filter(|model| model.execution.is_some());
        models.chain(random(240)).chain([crowd(), sixteen(), fences()]).collect()
    })
}

/// The model of this name.
pub fn named(name: &str) -> &'static Reported {
    with_graph().iter().find(|model| model.name == name).unwrap_or_else(|| panic!("no {name}"))
}
