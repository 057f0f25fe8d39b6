//! Every model of the repository gets the verdict that it expects, and the report that is stored of it.
#![forbid(unsafe_code)]

use std::fs;

use models::collection::{self, Verdict};
use program::read;
use second::{check, Ending, Search, PRINTING};

/// More places than any model needs.
const PLACES: usize = 100_000;

/// The verdict and the number of situations of each model.
fn found() -> Vec<(String, Verdict, usize)> {
    let models = collection::load(&collection::directory()).unwrap();
    let search = |model: collection::Model| {
        let Search { places, ending } = Search::new(&read(&model.bytes).unwrap(), PLACES);
        let verdict = match ending {
            Ending::Whole => Verdict::Robust,
            Ending::Witness(_) => Verdict::NotRobust,
            Ending::Full => panic!("{} has more than {PLACES} situations", model.name),
        };
        assert_eq!(verdict, model.expected, "{}", model.name);
        (model.name, verdict, places.len())
    };
    models.into_iter().map(search).collect()
}

#[test]
fn every_model_gets_its_verdict_and_readme_says_so() {
    let found = found();
    assert!(found.len() >= 62, "only {} models", found.len());
    let text = fs::read_to_string(collection::directory().join("README.md")).unwrap();
    let mut rows = 0;
    for row in text.lines().filter_map(|line| line.strip_prefix("| `")?.strip_suffix(" |")) {
        let [name, verdict, count] = row.split(" | ").collect::<Vec<_>>()[..] else { continue };
        let Ok(count) = count.parse::<usize>() else { continue };
        let name = name.trim_end_matches('`');
        let expected = if verdict == "RB" { Verdict::Robust } else { Verdict::NotRobust };
        let model = found.iter().find(|model| model.0 == name).unwrap_or_else(|| panic!("no model {name}"));
        assert_eq!((model.1, model.2), (expected, count), "{name}");
        rows += 1;
    }
    assert_eq!(rows, 37);
}

#[test]
fn every_model_gets_its_report_and_readme_has_that_of_sb() {
    let [table, trace] = PRINTING;
    for model in collection::load(&collection::directory()).unwrap() {
        assert_eq!(check(&model.bytes, table, trace).to_string(), model.report, "{}", model.name);
    }
    let text = fs::read_to_string(collection::directory().join("README.md")).unwrap();
    assert!(text.contains(&format!("```\n{}```\n", collection::named("sb").unwrap().report)));
}
