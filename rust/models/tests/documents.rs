//! What the documents show: every model in them gets its verdict, every report is the stored one, every line assembles.
#![forbid(unsafe_code)]

use std::fs;

use models::assemble;
use models::collection::{self, Verdict};
use program::{place_size, places_available, read};
use second::{Ending, Search, PRINTING};

/// The text of a document, by its path from the root of the repository.
fn document(path: &str) -> String {
    fs::read_to_string(collection::directory().join("..").join(path)).unwrap()
}

/// The fenced blocks that are models: they start with `values`, or with comments and then `values`.
fn models_in(text: &str) -> Vec<&str> {
    let blocks = text.split("```").skip(1).step_by(2);
    let is_model = |block: &&str| {
        let first = block.lines().find(|line| !line.is_empty() && !line.starts_with('#'));
        first.is_some_and(|line| line.starts_with("values "))
    };
    blocks.filter(is_model).collect()
}

/// The verdict on a model and the number of its situations.
fn search(text: &str) -> (Verdict, usize) {
    let bytes = assemble(text.as_bytes()).unwrap_or_else(|mistake| panic!("{mistake} in\n{text}"));
    let Search { places, ending } = Search::new(&read(&bytes).unwrap(), 100_000);
    match ending {
        Ending::Whole => (Verdict::Robust, places.len()),
        Ending::Witness(_) => (Verdict::NotRobust, places.len()),
        Ending::Full => panic!("too many situations:\n{text}"),
    }
}

#[test]
fn every_model_in_a_document_gets_the_verdict_that_it_expects() {
    for (path, count) in [("docs/MODELLING.md", 3), ("models/README.md", 2)] {
        let text = document(path);
        let models = models_in(&text);
        assert_eq!(models.len(), count, "{path}");
        for model in models {
            assert_eq!(collection::expected(model), Ok(search(model).0), "{path}:\n{model}");
        }
    }
}

#[test]
fn the_reader_that_polls_has_more_situations_than_the_one_that_waits() {
    let text = document("docs/MODELLING.md");
    let polling = models_in(&text)[0];
    let start = polling.find("poll:").unwrap();
    let end = polling.find("  r2 := data").unwrap();
    let waiting = polling.replace(&polling[start..end], "  wait(ready = 1)\n");
    let said =
        format!("It has {} situations, and {} with `wait(ready = 1)`", search(polling).1, search(&waiting).1);
    assert!(text.contains(&said), "{said}");
}

#[test]
fn only_both_fences_together_are_too_many() {
    let text = document("docs/MODELLING.md");
    let fence = "  fence\n";
    let parts: Vec<_> = models_in(&text)[1].split(fence).collect();
    let [start, middle, end] = parts[..] else { panic!("{parts:?}") };
    for (first, second) in [("", ""), (fence, ""), ("", fence)] {
        assert_eq!(search(&[start, first, middle, second, end].concat()).0, Verdict::Robust);
    }
}

/// Message passing by an exchange in each thread. The two are ordered, as one of them reads the other.
#[test]
fn an_exchange_as_it_is_written_is_better_than_with_a_load() {
    let text = document("docs/MODELLING.md");
    let row = text.lines().find(|line| line.starts_with("| `v = atomic_exchange(&x, n)`")).unwrap();
    let lines: Vec<_> = row.split('`').skip(3).step_by(2).collect();
    let exchange = |first: &str| {
        format!("again:\n{first}\n{}\nr1 := r1 = r0\nr1 := r1 = 0\nif r1 goto again\n", lines[1])
    };
    let passing = |first: &str| {
        let exchange = exchange(first);
        search(&format!("values 2\nlocations x y\nthread\ny := 1\n{exchange}thread\n{exchange}r0 := y\n")).0
    };
    assert_eq!(passing(lines[0]), Verdict::Robust);
    assert_eq!(passing("r0 := x"), Verdict::NotRobust);
}

#[test]
fn every_report_of_a_command_is_the_stored_one() {
    let text = document("docs/MODELLING.md");
    let runs: Vec<_> = text.split("\n    $ ./order models/").skip(1).collect();
    assert_eq!(runs.len(), 5);
    for run in runs {
        let (name, rest) = run.split_once(".order\n").unwrap();
        let lines = rest.lines().map_while(|line| line.strip_prefix("    "));
        let printed: String = lines.map(|line| format!("{line}\n")).collect();
        assert_eq!(printed, collection::named(name).unwrap().report, "{name}");
    }
}

/// "Don't mix the two": of a fence on f and the line the one does not order the other.
#[test]
fn fences_of_two_forms_are_apart() {
    let model = |[first, second]: [&str; 2]| {
        let threads = format!("thread\nx := 1\n{first}\nr0 := y\nthread\ny := 1\n{second}\nr0 := x\n");
        search(&format!("values 2\nlocations x y f\n{threads}")).0
    };
    let [fadd, bcas, fence] = ["r3 := FADD(f, 0)", "BCAS(f, 0 -> 0)", "fence"];
    for same in [[fadd, fadd], [fadd, bcas], [bcas, bcas], [fence, fence]] {
        assert_eq!(model(same), Verdict::Robust, "{same:?}");
    }
    for apart in [[fadd, fence], [fence, bcas]] {
        assert_eq!(model(apart), Verdict::NotRobust, "{apart:?}");
    }
}

#[test]
fn the_reports_in_the_format_are_the_stored_ones() {
    let text = document("docs/FORMAT.md");
    for name in ["sb", "sb+fence"] {
        let report = collection::named(name).unwrap().report;
        let shown: String = report.lines().map(|line| format!("    {line}\n")).collect();
        assert!(text.contains(&format!("\n\n{shown}\n")), "{name}:\n{shown}");
    }
}

#[test]
fn every_model_that_a_document_names_is_there() {
    let text = document("docs/MODELLING.md");
    let names: Vec<_> =
        text.split("models/").skip(1).filter_map(|rest| Some(rest.split_once(".order")?.0)).collect();
    assert!(names.len() > 10, "{names:?}");
    for name in names.into_iter().filter(|name| !name.contains(char::is_whitespace)) {
        assert!(collection::named(name).is_ok(), "{name}");
    }
}

#[test]
fn the_lines_beside_c11_are_lines() {
    let text = document("docs/MODELLING.md");
    let rows = text.lines().skip_while(|line| !line.starts_with("| C11 |")).skip(2);
    let lines: Vec<_> =
        rows.map_while(|row| row.strip_prefix("| ")?.split(" | ").nth(1)?.split('`').nth(1)).collect();
    assert_eq!(lines.len(), 12);
    for line in lines {
        let model = format!("values 3\nlocations x l f\nthread\n{line}\n");
        assert!(assemble(model.as_bytes()).is_ok(), "{line}");
    }
}

#[test]
fn the_sizes_of_places_are_those_of_the_formula() {
    let text = document("docs/MODELLING.md");
    let numbers = |row: &str| {
        let cells = row.trim_matches('|').split('|');
        cells.map(|cell| cell.trim().parse::<usize>().ok()).collect::<Option<Vec<_>>>()
    };
    let rows: Vec<_> = text.lines().filter_map(numbers).filter(|row| row.len() == 4).collect();
    assert_eq!(rows.len(), 7);
    for row in rows {
        let [threads, locations, size, places] = row[..] else { unreachable!() };
        assert_eq!(size, place_size(threads, locations));
        assert_eq!(places, places_available(PRINTING[0], threads, locations));
    }
}
