//! Reports to explain: those of the plain checker.

use answer::{steps_in, Report, Step};
use explain::{Checked, Explanation};
use models::collection::{self, Model, Verdict};
use models::Source;
use program::{encode, Program};
use random::{Numbers, Shape};

/// A program that is not robust, and the report on it.
pub struct Reported {
    pub name: String,
    pub source: Source,
    pub program: Program,
    pub report: Report,
    pub steps: Vec<Step>,
}

/// The report on a program, with the steps, in a table of this length.
fn report_on(program: &Program, table: usize) -> (Report, Vec<Step>) {
    let (mut table, mut trace) = (vec![0; table], vec![0; 1_000_000]);
    let report = plain::check(&encode(program), &mut table, &mut trace);
    let steps = if let Report::NotRobust { steps, .. } = report { steps } else { 0 };
    (report, steps_in(&trace[..steps * Step::BYTES]).unwrap())
}

/// What the plain checker says of a program.
pub fn check(program: &Program) -> Checked {
    check_in(10_000_000, program)
}

/// The same, in a table of this length.
pub fn check_in(table: usize, program: &Program) -> Checked {
    match report_on(program, table) {
        (Report::Robust { .. }, _) => Checked::Robust,
        (report @ Report::NotRobust { .. }, steps) => Checked::NotRobust { report, steps },
        _ => Checked::Undecided,
    }
}

/// The explanation of a report, with the plain checker.
pub fn explained(reported: &Reported) -> Explanation {
    explained_by(reported, &mut check)
}

/// The explanation of a report, with this checker.
pub fn explained_by(reported: &Reported, check: &mut dyn FnMut(&Program) -> Checked) -> Explanation {
    let Reported { name, source, report, steps, .. } = reported;
    Explanation::of(source, report, steps, check).unwrap_or_else(|why| panic!("{name}: {why}"))
}

/// The model of a text.
pub fn source(text: &str) -> Source {
    Source::of_text(text.as_bytes()).unwrap_or_else(|mistake| panic!("{mistake}"))
}

/// The report on a model, if it is not robust.
pub fn of_source(name: &str, source: Source) -> Option<Reported> {
    // Most witnesses come soon.
    of_source_in(1_000_000, name, source)
}

/// The same, in a table of this length.
pub fn of_source_in(table: usize, name: &str, source: Source) -> Option<Reported> {
    let program = source.program.clone();
    let (report, steps) = report_on(&program, table);
    let not_robust = matches!(report, Report::NotRobust { .. });
    not_robust.then(|| Reported { name: name.into(), source, program, report, steps })
}

/// Every model that is not robust.
pub fn models_not_robust() -> Vec<Reported> {
    let models = collection::load(&collection::directory()).unwrap();
    let not_robust = models.into_iter().filter(|model| model.expected == Verdict::NotRobust);
    not_robust.map(of_model).collect()
}

/// The model of this name, which is not robust.
pub fn model(name: &str) -> Reported {
    of_model(collection::named(name).unwrap())
}

/// The text of the model of this name.
pub fn text_of_model(name: &str) -> String {
    std::fs::read_to_string(collection::directory().join(format!("{name}.order"))).unwrap()
}

fn of_model(model: Model) -> Reported {
    let source = source(&text_of_model(&model.name));
    of_source(&model.name, source).unwrap_or_else(|| panic!("{} is robust", model.name))
}

/// So many random programs that are not robust.
pub fn random_not_robust(count: usize) -> Vec<Reported> {
    let mut numbers = Numbers::new(2019);
    let shapes = [Shape::litmus(), Shape::winding(), Shape::racing(), Shape::looping(), Shape::wide()];
    random_of(&mut numbers, &shapes, count)
}

/// So many that are not robust, of programs with fences.
pub fn random_fenced(count: usize) -> Vec<Reported> {
    let mut found = random_of(&mut Numbers::new(5), &[Shape::fenced()], 2 * count);
    found.retain(|reported| reported.program.has_fence());
    found.truncate(count);
    found
}

fn random_of(numbers: &mut Numbers, shapes: &[Shape], count: usize) -> Vec<Reported> {
    let programs = (0..).map(|number| random::program(numbers, &shapes[number % shapes.len()]));
    let found = programs.enumerate().filter_map(|(number, program)| {
        let source = Source::of_bytes(&encode(&program)).unwrap();
        of_source(&format!("program {number}"), source)
    });
    found.take(count).collect()
}
