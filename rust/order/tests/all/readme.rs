//! What README.md shows is what a user gets.

use std::fs;
use std::path::Path;

use crate::user::{ends_quietly, finish, folder, order};

fn readme() -> String {
    fs::read_to_string(Path::new(env!("CARGO_MANIFEST_DIR")).join("../../README.md")).unwrap()
}

/// The indented lines that start with this one, without their indentation.
fn block(start: &str) -> Vec<String> {
    let text = readme();
    let lines = text.lines().skip_while(|line| line.strip_prefix("    ") != Some(start));
    let block: Vec<String> = lines
        .take_while(|line| line.starts_with("    ") || line.is_empty())
        .map(|line| line.strip_prefix("    ").unwrap_or("").into())
        .collect();
    assert!(!block.is_empty(), "no {start}");
    block
}

#[test]
fn its_model_gets_the_report_and_the_explanation_that_it_shows() {
    let folder = folder("readme");
    fs::write(folder.join("my.order"), block("# store buffering").join("\n")).unwrap();
    let shown = block("$ ./order my.order")[1..].join("\n");
    let output = finish(order().current_dir(&folder).arg("my.order"), b"");
    ends_quietly(&output, 10, &format!("{}\n", shown.trim_end()));

    let shown = block("$ ./order --explain my.order")[1..].join("\n");
    let output = finish(order().current_dir(&folder).args(["--explain", "my.order"]), b"");
    let printed = String::from_utf8(output.stdout).unwrap();
    assert!(printed.starts_with(&format!("{}\n", shown.trim_end())), "{printed}");
    let after = &printed[shown.trim_end().len()..];
    assert!(after.starts_with("\n\nWhat would help"), "{after}");
}

#[test]
fn it_names_the_rust_that_is_needed() {
    let needed = format!("Rust {} or later", env!("CARGO_PKG_RUST_VERSION"));
    assert!(readme().contains(&needed), "{needed}");
}
