//! The picture of README.md is the one that the crate draws of its model.

use std::fs;
use std::path::{Path, PathBuf};

use page::picture;

use crate::reported::Reported;

fn root() -> PathBuf {
    Path::new(env!("CARGO_MANIFEST_DIR")).join("../..")
}

/// The model of README.md: the indented lines from its first comment on.
fn model() -> String {
    let text = fs::read_to_string(root().join("README.md")).unwrap();
    let lines = text.lines().skip_while(|line| *line != "    # store buffering");
    lines.map_while(|line| line.strip_prefix("    ")).map(|line| format!("{line}\n")).collect()
}

#[test]
fn the_picture_of_readme_is_that_of_its_model() {
    let reported = Reported::on("my.order", &model());
    let drawn = picture(&reported.source, &reported.graph().expect("it is not robust"));
    let kept = fs::read_to_string(root().join("docs/store-buffering.svg")).unwrap_or_default();
    if drawn != kept {
        let made = Path::new(env!("CARGO_TARGET_TMPDIR")).join("store-buffering.svg");
        fs::write(&made, drawn).unwrap();
        panic!("docs/store-buffering.svg is not what is drawn now: {}", made.display());
    }
}
